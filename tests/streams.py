"""streams.py BPF EXAMPLES SHIM: the command where a stream takes so many bytes and then fails, and what it shows on a terminal.

Where standard output takes so many bytes, 7 a write, what goes out is a beginning of the whole text: of each command that prints it is
tried with each length, of long texts, a long image and many answers at the edges of their pieces. Where it fails, that is told on standard error;
where that fails as well, the status is all that is left. A context on the command line has up to 4,096 bytes.
Contexts that come line by line are answered before another one is waited for, in whatever pieces they come.
A deep search shows its line on a terminal by a clock that goes on at each look, and shows nothing elsewhere."""
import errno
import os
import pathlib
import re
import select
import subprocess
import sys
import tempfile
import tty
from concurrent.futures import ThreadPoolExecutor

BPF, EXAMPLES, SHIM = os.path.abspath(sys.argv[1]), pathlib.Path(sys.argv[2]).absolute(), os.path.abspath(sys.argv[3])
# what is told where standard output fails: by its name, where it stands for OUT
TOLD, TOLD_OF_OUT = b'cannot write standard output\n', b'cannot write -\n'
CLEARED = '\r\x1b[K'
# the longest text that is tried with each length
LONGEST = 2_000

TEXTS = {
    'falling': 'r6 = 10\nr6 += -1\nif r6 != 0 goto -2\nr0 = 0\nexit\n',
    'endless': 'goto -1\n',
    'long': 'r0 = 0\n' * 1_199 + 'exit\n',
    'last-byte': 'r0 = *(u8 *)(r1 + 4095)\nexit\n',
    'nest': 'r0 = 0\nr6 = 3\na: r7 = 3\nb: r8 = 3\nc: r8 += -1\nif r8 != 0 goto c\n'
            'r7 += -1\nif r7 != 0 goto b\nr6 += -1\nif r6 != 0 goto a\nexit\n',
}
FILES = {
    'falling.cert': b'bpfcert 1 0 23\nfn 0 1 *\nat 0 23\nat 1 2 +1*r6\nr6 u1..10\nend\n',
    'long.cert': b'bpfcert 1 0 1200\nfn 0 1 *\nat 0 1200\nend\n',
    'smallest.notes': b'bpfnotes 2 length 0 turns 65536 untouched 0\n0 old 0\n1 old 1 r0\n',
    'refused.img': b'\xb7\x10\0\0\0\0\0\0',
    'refused.asm': b'r0 = 0\nr1 = r11\n',
    'refused.cert': b'bpfcert 3 0 2\n',
    'many': b'none\n\n' * 1_000,
}
# the words, and the status where nothing fails
CALLS = [
    ('explain smallest.img smallest.cert', 0),
    ('explain smallest.img smallest.cert --slot 1', 0),
    ('explain smallest.img --infer 0', 0),
    ('explain smallest.img --infer 0 --deep', 0),
    ('explain smallest.img --harden 0', 0),
    ('explain smallest.img --harden 0 --padded', 1),
    ('explain refused.img', 1),
    ('explain --text refused.asm', 1),
    ('explain smallest.img refused.cert', 1),
    ('explain smallest.img smallest.cert --dot', 0),
    ('explain smallest.img --dot', 0),
    ('explain falling.img falling.cert', 1),
    ('explain falling.img falling.cert --dot', 1),
    ('explain endless.img --infer 0', 1),
    ('explain endless.img --infer 0 --deep', 1),
]
# the words, and what they say
LINES = [
    ('groups smallest.img', b'base\n'),
    ('check smallest.img smallest.cert', b'yes length 0 bound 2\n'),
    ('run-checked smallest.img smallest.cert none', b'done 0\n'),
    ('follows smallest.img smallest.img smallest.notes smallest.cert', b'yes length 0 turns any bound 2\n'),
    ('list smallest.img', b'r0 = 0\nexit\n'),
    ('migrate falling.cert -', b'bpfcert 2 0 0 23\nfn 0 1 *\nat 0 23\nat 1 2 +1*r6\nr6 u1..10\nend\n'),
    ('explain smallest.img', b'an image of 2 slots\n'),
    ('run smallest.img none --steps 2', b'done 0 steps 2\n'),
]
LONG_CALLS = ['explain long.img long.cert', 'explain long.img long.cert --dot', 'list long.img', 'asm long.asm -',
              'run-checked smallest.img smallest.cert --contexts many', 'run smallest.img --contexts many --steps 9']
# what comes on standard input, piece by piece, and how many answers are out before the next piece is there
PIECES = [(b'none\n', 1), (b'no', 0), (b'ne\nnone\n\n', 3), (b'none\n' * 2_000 + b'n', 2_000), (b'one', 0)]
IN_TURN = [('run-checked smallest.img smallest.cert --contexts -', b'done 0\n'), ('run smallest.img --contexts - --steps 9', b'done 0 steps 2\n')]
# the words, the status, and the one where standard error fails
SILENT = [('groups nowhere', 3, 3), ('run smallest.img zz --steps 9', 2, 3), ('groups', 2, 2)]
# the context, the status, and what is said on the two streams
CONTEXTS = [
    ('2a' * 4096, 0, b'done 42 steps 2\n', b''),
    ('2a' * 4097, 2, b'', b'context too long\n'),
    ('2a' * 4097 + '2', 2, b'', b'bad hex\n'),
]


class Wrong(Exception):
    """An answer that isn't right."""


def require(what, got, right):
    if got != right:
        raise Wrong(f'{what}\n  got   {got}\n  right {right}')


def environment(disturbed):
    return {**os.environ, 'LD_PRELOAD': SHIM, **{name: str(value) for name, value in disturbed.items()}}


def answer(words, **disturbed):
    """The status and what goes out on the two streams."""
    done = subprocess.run([BPF, *words.split()], env=environment(disturbed), capture_output=True, timeout=60, check=False)
    return done.returncode, done.stdout, done.stderr


# ---- standard output

def whole_of(words, status):
    """What goes out where nothing fails."""
    got = answer(words)
    require(words, (got[0], got[2]), (status, b''))
    return got[1]


def try_room(case):
    """Whether a beginning goes out where standard output takes so many bytes."""
    words, status, whole, room = case
    told = TOLD_OF_OUT if words.endswith(' -') else TOLD
    right = (status, whole, b'') if room >= len(whole) else (3, whole[:room], told)
    require(f'{words}: standard output takes {room} bytes', answer(words, OUT_LEFT=room, NARROW=7), right)


def rooms_of(words, status):
    """Each room for a text, up to the whole of it."""
    whole = whole_of(words, status)
    require(f'{words}: up to {LONGEST} bytes are written', len(whole) <= LONGEST, True)
    return [(words, status, whole, room) for room in range(len(whole) + 1)]


def long_rooms_of(words):
    """Rooms for a text of several pieces."""
    whole = whole_of(words, 0)
    require(f'{words}: more than 8192 bytes are written', len(whole) > 8192, True)
    return [(words, 0, whole, room) for room in (0, 1, 4095, 4096, 4097, 8191, 8192, len(whole))]


def all_rooms():
    for words, said in LINES:
        require(words, whole_of(words, 0), said)
    calls = CALLS + [(words, 0) for words, _ in LINES]
    return [room for call in calls for room in rooms_of(*call)] + [room for words in LONG_CALLS for room in long_rooms_of(words)]


# ---- standard error and the words

def try_silent():
    """Where standard error fails, what it took is a beginning of the line, and the status says the rest."""
    for words, told, status in SILENT:
        undisturbed, out, whole = answer(words)
        require(words, (undisturbed, out, len(whole) > 3), (told, b'', True))
        for room in (0, 3):
            require(f'{words}: standard error takes {room} bytes', answer(words, ERR_LEFT=room), (status, b'', whole[:room]))


def try_contexts():
    for context, *right in CONTEXTS:
        require(f'run with a context of {len(context)} digits', answer(f'run last-byte.img {context} --steps 9'), tuple(right))


def take(stream, count):
    """So many bytes of a stream; fewer where no more come for ten seconds."""
    got = b''
    while len(got) < count and select.select([stream], [], [], 10)[0]:
        piece = os.read(stream.fileno(), count - len(got))
        if not piece:
            break
        got += piece
    return got


def try_in_turn():
    """Each answer is out before another line is waited for; the last line is answered at the end."""
    for words, said in IN_TURN:
        with subprocess.Popen([BPF, *words.split()], stdin=subprocess.PIPE, stdout=subprocess.PIPE, bufsize=0) as child:
            for piece, count in PIECES:
                child.stdin.write(piece)
                require(f'{words}: answers to {piece[:20]}', take(child.stdout, count * len(said)), count * said)
            child.stdin.close()
            require(f'{words}: the last answer', child.stdout.read(), said)
        require(words, child.returncode, 0)


# ---- the line on a terminal

def on_terminal(words, step, both=False):
    """What a terminal shows of the command, by a clock that goes on by so many milliseconds at each look; and the status.
    Standard error is that terminal, and where both are asked for, so is standard output."""
    master, slave = os.openpty()
    tty.setraw(slave)
    out = slave if both else subprocess.DEVNULL
    with subprocess.Popen([BPF, *words.split()], env=environment({'CLOCK_STEP_MS': step}), stdout=out, stderr=slave) as child:
        os.close(slave)
        shown = b''.join(iter(lambda: read_terminal(master), b''))
    os.close(master)
    return shown.decode(), child.returncode


def read_terminal(master):
    try:
        return os.read(master, 65536)
    except OSError as error:
        # so a terminal says that nobody writes to it any more
        if error.errno != errno.EIO:
            raise
        return b''


def line_of(labels, millis):
    return f'\rbpf: searching, {labels} labels gone over, {millis // 1000} s'


def shown_of(labels, step):
    """What is to be shown of a search that has gone over so many labels at each look: after a second, and then four times
    a second at most."""
    due, lines = 1000, []
    for look, count in enumerate(labels, 1):
        if look * step >= due:
            due = look * step + 250
            lines.append(line_of(count, look * step))
    return ''.join(lines) + (CLEARED if lines else '')


def labels_of(words):
    """How many labels were gone over at each look: a clock that goes on by a second shows them all."""
    shown, _ = on_terminal(words, 1000)
    labels = [int(it) for it in re.findall(r'searching, (\d+) labels', shown)]
    require(f'{words}, a look a second', shown, shown_of(labels, 1000))
    require(f"{words}: at least 20 looks, and labels that don't fall", len(labels) >= 20 and labels == sorted(labels), True)
    return labels


def try_terminal():
    """A deep search shows its line by the clock alone, finds the same, and clears it before anything else is printed."""
    explained = 'explain nest.img --infer 0 --deep'
    whole = whole_of(explained, 0)
    looks = 0
    for words in ('infer --deep nest.img 0 nest.cert', explained):
        labels = labels_of(words)
        for step in (0, 1, 10, 200, 249, 250, 999, 1001):
            require(f'{words}, {step} ms a look', on_terminal(words, step), (shown_of(labels, step), 0))
        looks += len(labels)
    require('both streams on a terminal', on_terminal(explained, 200, both=True), (shown_of(labels, 200) + whole.decode(), 0))
    require('no terminal', answer(explained, CLOCK_STEP_MS=1000), (0, whole, b''))
    # (a plain search shows no line of its own; its refusal is followed by the line that helps)
    helps = 'try --deep, or `bpf harden nest.img 0 NEW`; `bpf explain nest.img --infer 0` tells why'
    require('a plain search', on_terminal('infer nest.img 0 OUT', 1000)[0].splitlines(), [helps])
    return looks


# ---- all of it

def make_files():
    for name in ('smallest.img', 'smallest.cert'):
        pathlib.Path(name).write_bytes((EXAMPLES / name).read_bytes())
    for name, data in FILES.items():
        pathlib.Path(name).write_bytes(data)
    for name, text in TEXTS.items():
        pathlib.Path(f'{name}.asm').write_text(text, encoding='ascii')
        subprocess.run([BPF, 'asm', f'{name}.asm', f'{name}.img'], check=True)


def try_all():
    make_files()
    try_silent()
    try_contexts()
    try_in_turn()
    looks = try_terminal()
    rooms = all_rooms()
    with ThreadPoolExecutor(os.cpu_count()) as pool:
        for _ in pool.map(try_room, rooms):
            pass
    print(f'streams: {len(rooms)} rooms, {len(SILENT)} lines cut on standard error, {len(CONTEXTS)} contexts, {looks} looks at a clock, '
          'no wrong answer')


def main():
    with tempfile.TemporaryDirectory(prefix='bpf-streams-') as folder:
        os.chdir(folder)
        try:
            try_all()
        except Wrong as it:
            print(f'streams: {it}')
            return 1
    return 0


sys.exit(main())

"""failures.py BPF EXAMPLES SHIM CALLS: the command under a library that refuses the Nth growth of memory, fails the Nth open, read or
write, or shortens it. For want of memory right is the answer of the undisturbed command, the refusal of the step at which it ran out, or
`no memory`. A failure has to be told by its name, though the next try would go well: nothing is tried again. What is shortened changes
nothing. Nothing is half written. CALLS is the program of crates/bpf_tests, which makes calls that no command makes alone for a line `calls`, or ''
for none."""
import errno
import os
import pathlib
import re
import shutil
import struct
import subprocess
import sys
import tempfile
from concurrent.futures import ThreadPoolExecutor

BPF, EXAMPLES, SHIM, CALLER = sys.argv[1], pathlib.Path(sys.argv[2]), sys.argv[3], sys.argv[4]
OLD = b'what stood here before\n'
# The refusal for want of memory: of an image, a certificate, a text, a search, a program to be hardened.
E9, K4, A7, I5, H12 = 'no E9 at slot 0\n', 'no K4 at line 0\n', 'no A7 at line 0\n', 'no I5 at slot 0\n', 'no H12 at slot 0\n'
# Of two images each, and of notes.
E9_OLD, E9_NEW, N2 = 'no E9 of OLD at slot 0\n', 'no E9 of NEW at slot 0\n', 'no N2 at line 0\n'
# Of an explanation: of a text behind its first reading, and of a search, whose words stand behind what was found out before it.
A7_TOLD, I5_TOLD = 'A7: out of memory\n', 'no certificate: I5, out of memory\n'
H12_TOLD = 'no hardened program: H12 at slot 0\nout of memory\n'
# The names that are written.
MADE = ['OUT', 'standard output', '/dev/null', '/dev/zero']
# What the line of an answer takes as it grows, in bytes: half a frame of a program.
LINE = 256
# How a read or write fails: by an error of the device, by an interruption, and without an error, where a write takes nothing.
FAULTS = [errno.EIO, errno.EINTR, 0]
# The line for which the program of tests makes calls that no command makes alone, and one as long that it writes again and does no more.
ASK, AGAIN = 'calls\n', '#    \n'
# How it ends where there is no memory for a line, and what the calls say where there is none for them, by their first words.
NO_LINE = 1, '', 'Error: Kind(OutOfMemory)\n'
WANT, WANT_OF_CERTIFICATE = 'out of memory', 'the certificate is refused: out of memory'
CALLS = {'assemble': WANT, 'decode_from': WANT, 'new': WANT, 'verify': WANT_OF_CERTIFICATE}

# The words of each command, and the refusal that want of memory may be at each of its steps, in their order.
COMMANDS = [
    ('groups fetch.img', [E9]),
    ('asm checksum.asm OUT', [A7]),
    ('asm bad.asm OUT', [A7]),
    ('list fetch.img', [E9]),
    ('list reserved.img', [E9]),
    ('list --slots --bytes fetch.img', [E9]),
    ('infer checksum.img 16 OUT', [E9, I5]),
    ('infer checksum.img 15 OUT', [E9, I5]),
    ('infer --deep checksum.img 15 OUT', [E9, I5]),
    ('harden first-byte.img 1 OUT', [E9, H12]),
    ('harden nth.img 16 OUT', [E9, H12]),
    ('harden checksum.img 15 OUT', [E9, H12]),
    ('harden checksum.img 16 OUT --unproved --notes /dev/null --changes /dev/zero', [E9, H12]),
    ('harden checksum.img 16 OUT --unproved --certificate /dev/null', [E9, H12]),
    ('follows first-byte.img first-byte.img first-byte.notes first-byte.cert', [E9_OLD, E9_NEW, N2, K4]),
    ('follows first-byte.img first-byte.img first-byte.notes countdown.cert', [E9_OLD, E9_NEW, N2, K4]),
    ('follows first-byte.img first-byte.img first-byte.cert first-byte.cert', [E9_OLD, E9_NEW, N2]),
    ('check countdown.img countdown.cert', [E9, K4]),
    ('check first-byte.img countdown.cert', [E9, K4]),
    ('check --work countdown.img countdown.cert', [E9, K4]),
    ('run first-byte.img 2a --steps 100', [E9]),
    ('run first-byte.img none --steps 100', [E9]),
    ('run first-byte.img --context byte --steps 100', [E9]),
    ('run first-byte.img --contexts contexts --steps 100', [E9]),
    ('run first-byte.img --contexts bad-second --steps 100', [E9]),
    ('run-checked first-byte.img first-byte.cert 2a', [E9, K4]),
    ('run-checked first-byte.img first-byte.cert none', [E9, K4]),
    ('run-checked first-byte.img first-byte.cert --context byte', [E9, K4]),
    ('run-checked first-byte.img first-byte.cert --contexts contexts', [E9, K4]),
    ('run-checked first-byte.img first-byte.cert --contexts bad-second', [E9, K4]),
    ('run-checked told.img told.cert --packets two.pcap', [E9, K4]),
    ('run-checked told.img told.cert --packets two.pcap --counts', [E9, K4]),
    ('run-checked told.img told.cert --packets cut.pcap', [E9, K4]),
    ('migrate countdown.cert OUT', [K4]),
    ('explain fetch.img', [E9]),
    ('explain reserved.img', [E9]),
    ('explain --text bad.asm', [A7, A7_TOLD]),
    ('explain --text checksum.asm', [A7, A7_TOLD]),
    ('explain countdown.img countdown.cert', [E9, K4]),
    ('explain first-byte.img countdown.cert --slot 0', [E9, K4]),
    ('explain fetch.img --dot', [E9]),
    ('explain countdown.img countdown.cert --dot', [E9, K4]),
    ('explain countdown.img bad.asm', [E9, K4]),
    ('explain checksum.img --infer 16', [E9, I5_TOLD]),
    ('explain checksum.img --infer 15', [E9, I5_TOLD]),
    ('explain checksum.img --infer 15 --deep', [E9, I5_TOLD]),
    ('explain nth.img --harden 16', [E9, H12_TOLD]),
    ('explain checksum.img --harden 15', [E9, H12_TOLD]),
    ('explain nth.img --harden 16 --padded', [E9, H12_TOLD]),
]


class Answer:
    def __init__(self, words, **disturbed):
        self.words = words
        self.folder = tempfile.mkdtemp()
        given = [path for path in (folder / word for word in words for folder in (EXAMPLES, FOLDER)) if path.is_file()]
        try:
            for path in given:
                shutil.copy(path, self.folder)
            out = os.path.join(self.folder, 'OUT')
            pathlib.Path(out).write_bytes(OLD)
            counts = os.path.join(self.folder, 'counts')
            env = {'LD_PRELOAD': SHIM, 'COUNT_FILE': counts, **{k: str(v) for k, v in disturbed.items()}}
            done = subprocess.run([BPF, *words], cwd=self.folder, env=env, capture_output=True, timeout=60)
            self.status, self.out, self.err = done.returncode, done.stdout.decode(), done.stderr.decode()
            self.written = pathlib.Path(out).read_bytes()
            self.counts = [int(n) for n in pathlib.Path(counts).read_text().split()]
            self.left = sorted(set(os.listdir(self.folder)) - {path.name for path in given} - {'OUT', 'counts'})
        finally:
            shutil.rmtree(self.folder)

    def told(self):
        return self.status, self.out, self.err, self.written

    def __str__(self):
        return f'{self.words}: status {self.status}, {self.out!r}, {self.err!r}, OUT {self.written[:40]!r}, left {self.left}'


def wrong(what, n, got, right):
    print(f'failures: {what} {n}\n  got   {got}\n  right {right}')
    sys.exit(1)


def is_in_part(got, right):
    """An explanation that leaves out what there is no memory for: it says so in its last line, or says nothing that the whole one doesn't."""
    *lines, last = got.out.splitlines(keepends=True) or ['']
    instructions = [line.split(';')[0].rstrip() for line in lines if re.match(r' +\d+  ', line)]
    if last == I5_TOLD:
        return all(instruction in right.out for instruction in instructions)
    return right.status == 1 and all(line in right.out for line in [*lines, last])


def refusal_in(got, right, refusals):
    """The step whose refusal for want of memory this is, None where it is none. Want of memory elsewhere is no step's. The sentence of a refusal
    may stand in front, where there was no memory for its line."""
    if got.status == 3:
        return -1 if got.err in ('no memory\n', right.err + 'no memory\n') and right.out.startswith(got.out) else None
    if got.status != 1 or got.err:
        return None
    if got.out in refusals:
        return refusals.index(got.out)
    return len(refusals) - 1 if refusals[-1] == I5_TOLD and is_in_part(got, right) else None


def is_failure(got, right):
    """The name that can't be read or written is told; where standard error fails, a beginning of a line without its LF."""
    names = [word for word in got.words[1:] if not word.startswith('-')]
    lines = [f'cannot read {name}\n' for name in names if name not in MADE] + [f'cannot write {name}\n' for name in MADE]
    # (the sentence of a refusal may stand in front)
    err = got.err.removeprefix(right.err)
    told = err in lines or any(line[:-1].startswith(got.err) for line in [*lines, right.err])
    return got.status == 3 and told and right.out.startswith(got.out)


def lacks_words(got, right):
    """The answer of a refusal, of whose sentence on standard error a part couldn't be told: that makes no difference to the answer."""
    is_part = any(right.err.startswith(got.err[:at]) and right.err.endswith(got.err[at:]) for at in range(len(got.err) + 1))
    return right.status == 1 and right.err and got.status == 1 and got.out == right.out and is_part


def whole_or_old(got, right):
    return got.written in (OLD, right.written) and not got.left


def countdown(turns):
    """The image of a loop of so many turns, and its certificate."""
    image = bytes.fromhex('b7060000') + turns.to_bytes(4, 'little') + bytes.fromhex('07060000ffffffff5506feff00000000b7000000000000009500000000000000')
    steps = 2 * turns + 3
    return image, f'bpfcert 1 0 {steps}\nfn 0 1 *\nat 0 {steps}\nat 1 2 +2*r6\nr6 u1..{turns}\nend\n'.encode()


def straight(count):
    """The image of so many instructions in a row, and its certificate."""
    return bytes.fromhex('b700000000000000') * (count - 1) + bytes.fromhex('9500000000000000'), f'bpfcert 1 0 {count}\nfn 0 1 *\nat 0 {count}\nend\n'.encode()


def takes_no_memory(name, small, large):
    """Between the last read and the first write the command grows memory as often for a small program as for a large one, and asks for no
    more than LINE bytes."""
    if small.status or large.status or small.counts[1] != large.counts[1] or max(small.counts[2], large.counts[2]) > LINE:
        print(f'failures: {name} takes memory\n  small {small}, {small.counts}\n  large {large}, {large.counts}')
        sys.exit(1)
    print(f'{name}: {small.counts[1]} allocations of {large.counts[2]} bytes behind the last read, for the answer\'s line, whatever the program')


def show_no_memory():
    # (of each two programs the answers' lines are as long as one another)
    for name, make, few, many in (('straight', straight, 10000, 65536), ('countdown', countdown, 50000, 400000)):
        for size, count in (('small', few), ('large', many)):
            image, certificate = make(count)
            (FOLDER / f'{name}-{size}.img').write_bytes(image)
            (FOLDER / f'{name}-{size}.cert').write_bytes(certificate)
        checks = [Answer(['check', f'{name}-{size}.img', f'{name}-{size}.cert']) for size in ('small', 'large')]
        takes_no_memory(f'check, {name}', *checks)
    runs = [Answer(['run', f'countdown-{size}.img', 'none', '--steps', '4000000']) for size in ('small', 'large')]
    takes_no_memory('run, countdown', *runs)
    runs = [Answer(['run-checked', f'countdown-{size}.img', f'countdown-{size}.cert', 'none']) for size in ('small', 'large')]
    takes_no_memory('run-checked, countdown', *runs)


def called(folder, line, **disturbed):
    """The status of the program of tests and what it writes, given a line, and how often memory grew."""
    counts = folder / 'calls'
    env = {'LD_PRELOAD': SHIM, 'COUNT_FILE': str(counts), **{k: str(v) for k, v in disturbed.items()}}
    done = subprocess.run([CALLER], input=line, env=env, capture_output=True, text=True, timeout=60)
    return (done.returncode, done.stdout, done.stderr), int(counts.read_text().split()[0])


def answers_of(told):
    """What the calls answer, by their names; nothing where the program fails."""
    status, out, err = told
    return dict(line.partition(': ')[::2] for line in out.splitlines()) if (status, err) == (0, '') else {}


def show_calls(folder):
    """Where one growth is refused, one call says so, and the others what they say anyway. Each call of CALLS has such growths. The first growths
    are for reading the line: where one of them is refused, the program fails, and answers nothing."""
    (again, reading), (told, total) = called(folder, AGAIN), called(folder, ASK)
    if again != (0, AGAIN, ''):
        wrong('growths for reading a line:', reading, again, AGAIN)
    for n in range(1, reading + 1):
        got, _ = called(folder, ASK, REFUSE_ALLOC=n)
        if got != NO_LINE:
            wrong('allocation for the line of the calls', n, got, NO_LINE)
    right, seen = answers_of(told), set()
    for n in range(reading + 1, total + 1):
        got = answers_of(called(folder, ASK, REFUSE_ALLOC=n)[0])
        others = [name for name in right if got.get(name) != right[name]]
        if list(got) != list(right) or len(others) != 1 or got[others[0]] != CALLS.get(others[0].split(',')[0]):
            wrong('allocation of the calls', n, got, right)
        seen.add(others[0])
    if {name.split(',')[0] for name in seen} != set(CALLS):
        print(f'failures: not each call was refused memory: {seen}')
        sys.exit(1)
    print(f'{"; ".join(right)}: {total - reading} allocations, and {reading} for reading the line')


def try_memory(words, refusals, right):
    """Each growth of memory is refused: each step's refusal comes, and none before the one of an earlier step."""
    steps = []
    for n in range(1, right.counts[0] + 1):
        got = Answer(words, REFUSE_ALLOC=n)
        step = refusal_in(got, right, refusals)
        if got.told() != right.told() and step is None or not whole_or_old(got, right):
            wrong('allocation', n, got, right)
        if got.told() != right.told() and step >= 0:
            steps.append(step)
    if steps != sorted(steps) or 0 not in steps:
        print(f'failures: {words}: want of memory is told of the steps {steps} of {refusals}')
        sys.exit(1)


def try_streams(words, right):
    """Each read or write fails in each way, which is told, since none is tried again; and each is shortened."""
    for n in range(1, right.counts[3] + 1):
        for fault in FAULTS:
            got = Answer(words, REFUSE_IO=n, FAULT=fault)
            if not (is_failure(got, right) or lacks_words(got, right)) or not whole_or_old(got, right):
                wrong('read or write', n, got, right)
    for n in range(1, right.counts[4] + 1):
        got = Answer(words, SHORT_IO=n)
        if got.told() != right.told() or got.left:
            wrong('short read or write', n, got, right)


def try_command(command):
    """How often memory grew, how often the command read or wrote, and how often several bytes at once."""
    line, refusals = command
    words = line.split()
    right = Answer(words)
    try_memory(words, refusals, right)
    try_streams(words, right)
    allocs, _, _, io, short = right.counts
    return allocs, io, short


def two_packets():
    """A capture of two packets."""
    header = struct.pack('<IHHIIII', 0xa1b2c3d4, 2, 4, 0, 0, 65535, 1)
    return header + b''.join(struct.pack('<IIII', 0, 0, len(it), len(it)) + it for it in (b'abc', b'defgh'))


def main():
    global FOLDER
    FOLDER = extra = pathlib.Path(tempfile.mkdtemp())
    (extra / 'bad.asm').write_text('r0 = 0\ngoto x\n')
    (extra / 'byte').write_text('*')
    (extra / 'contexts').write_text('2a\nnone\nff\n')
    (extra / 'bad-second').write_text('2a\nzz\n00\n')
    (extra / 'told.asm').write_text('r0 = *(u64 *)(r1 + 0)\nexit\n')
    (extra / 'told.cert').write_text('bpfcert 1 16 2\nfn 0 1 *\nat 0 2\nr1 ctx0..0\nend\n')
    (extra / 'two.pcap').write_bytes(two_packets())
    (extra / 'cut.pcap').write_bytes(two_packets()[:-1])
    subprocess.run([BPF, 'asm', str(extra / 'told.asm'), str(extra / 'told.img')], check=True)
    for name in ('checksum', 'nth'):
        subprocess.run([BPF, 'asm', str(EXAMPLES / f'{name}.asm'), str(extra / f'{name}.img')], check=True)
    subprocess.run([BPF, 'harden', str(EXAMPLES / 'first-byte.img'), '1', os.devnull, '--notes', str(extra / 'first-byte.notes')], check=True)
    totals = {'allocations refused': 0, 'reads and writes failed': 0, 'reads and writes shortened': 0}
    with ThreadPoolExecutor(os.cpu_count()) as pool:
        for (line, _), counts in zip(COMMANDS, pool.map(try_command, COMMANDS)):
            for name, count in zip(totals, counts):
                totals[name] += count
            print('{}: {} allocations, {} reads and writes, {} of several bytes'.format(line, *counts), flush=True)
    show_no_memory()
    if CALLER:
        show_calls(extra)
    shutil.rmtree(extra)
    print('failures: ' + ', '.join(f'{count} {name}' for name, count in totals.items()) + ', no wrong answer')


main()

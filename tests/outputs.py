#!/usr/bin/env python3
"""outputs.py BPF: what the command makes at OUT, whatever stands there: plain files of any mode, links, other names of one file,
devices and pipes, what runs that were killed left behind, names as long as the system takes. Where a write fails, what stood at
OUT stays and nothing else is left. And words that aren't UTF-8."""
import os
import pathlib
import resource
import signal
import stat
import subprocess
import sys
import tempfile

BPF = os.path.abspath(sys.argv[1])
TEXT = 'r0 = 0\nexit\n'
# RFC 9669: 64-bit MOV of the constant 0 to r0, EXIT
IMAGE = bytes.fromhex('b700000000000000' '9500000000000000')
OLD = b'what stood here before\n'
# how many names the command tries beside OUT
TRIES = 100
# the longest name that Linux takes, in bytes
LONGEST = 255
FULL = 'No space left'
CASES = []


class Wrong(Exception):
    """An answer that isn't right."""


def require(what, got, right):
    if got != right:
        raise Wrong(f'{what}\n  got   {got}\n  right {right}')


def case(test):
    """A test, which runs in a folder of its own with the text `a.asm`."""
    CASES.append(test)
    return test


def limited(size, killed):
    """A file grows to this size at most; what goes beyond fails, or ends the process."""
    def limit():
        signal.signal(signal.SIGXFSZ, signal.SIG_DFL if killed else signal.SIG_IGN)
        resource.setrlimit(resource.RLIMIT_FSIZE, (size, size))
    return limit


def asm(out, **how):
    """The answer of `bpf asm a.asm OUT`: status, standard output, standard error."""
    done = subprocess.run([BPF, 'asm', 'a.asm', out], capture_output=True, timeout=60, check=False, **how)
    return done.returncode, done.stdout, done.stderr


def require_made(out, what=''):
    require(f'asm a.asm {out} {what}', asm(out), (0, b'', b''))


def require_refused(out, what='', why='', **how):
    """OUT can't be written, for this reason of the system, where it is one that is told."""
    reason = f': {why}'.encode() if why else b''
    require(f'asm a.asm {out} {what}', asm(out, **how), (3, b'', b'cannot write ' + os.fsencode(out) + reason + b'\n'))


def write(name, data=OLD, mode=None):
    path = pathlib.Path(os.fsdecode(name))
    path.write_bytes(data)
    if mode is not None:
        path.chmod(mode)


def read(name):
    return pathlib.Path(os.fsdecode(name)).read_bytes()


def mode_of(name):
    return stat.S_IMODE(os.stat(name).st_mode)


def names(folder='.'):
    """What stands in a folder, without the text."""
    return sorted(set(os.listdir(folder)) - {'a.asm'})


# ---- plain files

@case
def new_files():
    for mask in (0o022, 0o077, 0o000):
        os.umask(mask)
        require_made('out')
        require(f'a new file under mask {mask:o}', (read('out'), mode_of('out')), (IMAGE, 0o666 & ~mask))
        os.unlink('out')
    os.umask(0o022)


@case
def modes_are_kept():
    for mask in (0o022, 0o077):
        os.umask(mask)
        for mode in (0o600, 0o640, 0o644, 0o666, 0o755, 0o444, 0o400, 0o000):
            write('out', mode=mode)
            require_made('out')
            require(f'over a file of mode {mode:o} under mask {mask:o}', mode_of('out'), mode)
            os.chmod('out', 0o600)
            require('the image', read('out'), IMAGE)
            os.unlink('out')
    os.umask(0o022)
    # bits that let others run with the owner's rights aren't handed on
    write('out', mode=0o4755)
    require_made('out')
    require('over a file of mode 4755', mode_of('out'), 0o755)


@case
def other_names_keep_the_older_file():
    write('out')
    os.link('out', 'other')
    require_made('out')
    require('one of two names of a file', (read('out'), read('other')), (IMAGE, OLD))


@case
def full_disks():
    require_refused('out', 'on a full disk', FULL, preexec_fn=limited(8, killed=False))
    require('what is left of a new file', names(), [])
    write('out')
    require_refused('out', 'on a full disk', FULL, preexec_fn=limited(8, killed=False))
    require('what stood there', (names(), read('out')), (['out'], OLD))


@case
def what_cant_be_made():
    os.mkdir('folder')
    write('file')
    absent, folder, no_folder = 'No such file or directory', 'Is a directory', 'Not a directory'
    for out, why in (('folder', folder), ('folder/', folder), ('nowhere/out', absent), ('file/out', no_folder), ('new/', absent), ('', absent),
                     ('x' * (LONGEST + 1), 'File name too long')):
        require_refused(out, why=why)
    require('what is left', (names(), names('folder'), read('file')), (['file', 'folder'], [], OLD))


@case
def at_once():
    """Runs at once onto one name don't meet."""
    runs = [subprocess.Popen([BPF, 'asm', 'a.asm', 'out'], stderr=subprocess.PIPE) for _ in range(16)]
    answers = [(run.communicate()[1], run.returncode) for run in runs]
    require('16 runs at once', answers, [(b'', 0)] * len(runs))
    require('what is left', (names(), read('out')), (['out'], IMAGE))


# ---- links

def link_folders():
    """Files and links in two folders."""
    os.mkdir('links')
    os.mkdir('files')
    write('files/real', mode=0o640)
    os.symlink('../files/real', 'links/near')
    os.symlink('near', 'links/chain')
    os.symlink(os.path.abspath('links/chain'), 'links/far')
    os.symlink('../files/new', 'links/dangling')
    os.symlink('../links', 'files/links')


@case
def links_lead_to_files():
    link_folders()
    for out in ('links/near', 'links/chain', 'links/far', 'files/links/far'):
        write('files/real', mode=0o640)
        require_made(out)
        require(f'behind {out}', (read('files/real'), mode_of('files/real')), (IMAGE, 0o640))
    require_made('links/dangling')
    require('behind a link that led nowhere', (read('files/new'), mode_of('files/new')), (IMAGE, 0o644))
    require('links', [os.path.islink(f'links/{name}') for name in names('links')], [True] * 4)
    require('what is left', names('files'), ['links', 'new', 'real'])


@case
def links_on_full_disks():
    link_folders()
    for out in ('links/near', 'links/chain', 'links/far', 'links/dangling'):
        require_refused(out, 'on a full disk', FULL, preexec_fn=limited(8, killed=False))
    require('what is left', (names('files'), read('files/real')), (['links', 'real'], OLD))
    require('links', [os.path.islink(f'links/{name}') for name in names('links')], [True] * 4)


@case
def links_that_lead_nowhere():
    os.symlink('round', 'round')
    os.symlink('nowhere/file', 'lost')
    # (what the link leads to has a name that can't be said in UTF-8; the kit has no other word for that)
    write(b'b\xffd')
    os.symlink(b'b\xffd', 'latin')
    for out, why in (('round', 'Too many levels of symbolic links'), ('lost', 'No such file or directory'), ('latin', 'File name too long')):
        require_refused(out, why=why)
    require('what stood there', read(b'b\xffd'), OLD)


@case
def open_files_without_a_name():
    """`/dev/fd/N` of a file that was removed is written as it is."""
    with tempfile.TemporaryFile() as file:
        file.write(OLD)
        file.flush()
        require_made_through(f'/dev/fd/{file.fileno()}', file.fileno())
        file.seek(0)
        require('the open file', file.read(), IMAGE)
    require('what is left', names(), [])


def require_made_through(out, number):
    require(f'asm a.asm {out}', asm(out, pass_fds=[number]), (0, b'', b''))


# ---- names that lead to one file

def harden(*words):
    """The answer of `bpf harden` of the image in `i.img`: the status, and whether the image is as it was."""
    write('i.img', IMAGE)
    done = subprocess.run([BPF, 'harden', 'i.img', '0', *words], capture_output=True, timeout=60, check=False)
    return done.returncode, done.stderr, read('i.img') == IMAGE


@case
def names_that_lead_to_one_file():
    """OUT, --certificate, --notes and --changes have files of their own, and none of the last three comes in the place of the image."""
    os.mkdir('folder')
    os.mkdir('other')
    os.symlink('folder', 'door')
    os.symlink('folder/o', 'near')
    os.symlink('../folder/o', 'other/far')
    os.symlink('i.img', 'image')
    here = os.getcwd()
    refused = (2, b"words that don't go together\n", True)
    for one, other in (('o', './o'), ('o', f'{here}/o'), ('folder/o', 'door/o'), ('folder/o', 'near'), ('near', 'other/far'), ('o', 'folder/../o')):
        for option in ('--certificate', '--notes', '--changes'):
            require(f'OUT {one}, {option} {other}', harden(one, option, other), refused)
        for first, second in (('--certificate', '--notes'), ('--certificate', '--changes'), ('--notes', '--changes')):
            require(f'{first} {one}, {second} {other}', harden('p', first, one, second, other), refused)
    for name in ('i.img', './i.img', 'image', f'{here}/i.img', 'folder/../i.img'):
        for option in ('--certificate', '--notes', '--changes'):
            require(f'{option} {name}', harden('p', option, name), refused)
    require('what is left', (names(), names('folder'), names('other')), (['door', 'folder', 'i.img', 'image', 'near', 'other'], [], ['far']))
    # Files of their own, the image in its own place, and devices, of which nothing is lost.
    for words in (('folder/o', '--notes', 'other/o', '--certificate', 'c', '--changes', 'o'), ('i.img',), ('/dev/null', '--notes', '/dev//null', '--certificate', '/dev/./null')):
        require(' '.join(words), harden(*words), (0, b'', True))


@case
def hard_links_are_files_of_their_own():
    write('i.img', IMAGE)
    os.link('i.img', 'second')
    require('notes at another name of the image', harden('o', '--notes', 'second'), (0, b'', True))


# ---- devices and pipes

@case
def closed_pipes():
    """Whoever reads goes: nothing is told of it, and the status is the one of a tool that the signal ends."""
    write('long.asm', b'r0 = 0\n' * 20_000 + b'exit\n')
    require('a long image', subprocess.run([BPF, 'asm', 'long.asm', 'long.img'], capture_output=True, timeout=60, check=False).returncode, 0)
    write('contexts', b'none\n' * 20_000)
    write('i.img', IMAGE)
    for words in (['list', 'long.img'], ['run', 'i.img', '--contexts', 'contexts', '--steps', '9'], ['asm', 'long.asm', '-']):
        with subprocess.Popen([BPF, *words], stdout=subprocess.PIPE, stderr=subprocess.PIPE) as run:
            run.stdout.read(1)
            run.stdout.close()
            require(f'{words} behind a closed pipe', (run.stderr.read(), run.wait(60)), (b'', 141))


@case
def devices_and_pipes():
    require('asm a.asm -', asm('-'), (0, IMAGE, b''))
    require('asm a.asm /dev/stdout', asm('/dev/stdout'), (0, IMAGE, b''))
    require_made('/dev/null')
    require_refused('/dev/full', why=FULL)
    os.symlink('/dev/null', 'null')
    os.symlink('/dev/full', 'full')
    require_made('null')
    require_refused('full', why=FULL)
    os.mkfifo('pipe')
    os.symlink('pipe', 'link')
    for out in ('pipe', 'link'):
        with subprocess.Popen([BPF, 'asm', 'a.asm', out]) as run:
            require(f'read from {out}', (read('pipe'), run.wait(60)), (IMAGE, 0))
    require('what is left', names(), ['full', 'link', 'null', 'pipe'])
    require('the device', stat.S_ISCHR(os.stat('/dev/null').st_mode), True)


# ---- what was left behind

@case
def killed_runs():
    """A run that is killed leaves a file beside OUT; it is in nobody's way."""
    write('out')
    for count in range(3):
        require(f'killed run {count}', asm('out', preexec_fn=limited(8, killed=True))[0], -signal.SIGXFSZ)
    left = ['out', 'out.partial', 'out.partial1', 'out.partial2']
    require('what killed runs leave', (names(), read('out')), (left, OLD))
    require_made('out', 'behind killed runs')
    require('behind killed runs', (names(), read('out')), (left, IMAGE))


@case
def taken_names():
    """Whatever stands at a name beside OUT stays as it is."""
    write('precious')
    os.symlink('precious', 'out.partial')
    os.symlink('nowhere', 'out.partial1')
    os.mkdir('out.partial2')
    os.mkfifo('out.partial3')
    right = [*names(), 'out']
    require_made('out', 'beside taken names')
    require('taken names', (names(), read('out'), read('precious')), (sorted(right), IMAGE, OLD))


@case
def all_names_taken():
    write('out')
    for number in range(TRIES - 1):
        write(f'out.partial{number or ""}')
    require_made('out', 'with one name left')
    write('out')
    write(f'out.partial{TRIES - 1}')
    require_refused('out', 'with no name left')
    require('what stood there', (read('out'), len(names())), (OLD, TRIES + 1))


# ---- long names

@case
def long_names():
    os.mkdir('folder')
    for length in (1, 200, *range(LONGEST - 14, LONGEST + 1)):
        for name in ('n' * length, 'folder/' + 'n' * length):
            require_made(name, 'a new file')
            write(name, mode=0o600)
            require_made(name)
            require(f'a name of {length} bytes', (read(name), mode_of(name)), (IMAGE, 0o600))
            require_refused(name, 'on a full disk', FULL, preexec_fn=limited(8, killed=False))
            os.unlink(name)
    # 85 letters of three bytes, and one that ends behind where the longer names do
    for name in ('\u20ac' * 85, 'n' * 3 + '\u20ac' * 84):
        require_made(name)
        os.unlink(name)
    require('what is left', (names(), names('folder')), (['folder'], []))


@case
def long_names_beside_what_is_left():
    name = 'n' * LONGEST
    write('bpf.partial')
    require_made(name)
    require('a long name', (read(name), read('bpf.partial')), (IMAGE, OLD))
    # the names with a number are too long, the first isn't
    name = 'n' * (LONGEST - len('.partial'))
    write(f'{name}.partial')
    require_made(name)
    require('a name of 247 bytes', (read(name), read(f'{name}.partial')), (IMAGE, OLD))


# ---- words

# Control characters, and how they are told: by their bytes, so that a terminal does nothing and a line stays one. Other letters are as they are.
CONTROLS = 'a\x1b[1m\nb\tc\x7fd\x9be\u00e9'
CONTROLS_TOLD = 'a\\x1b[1m\\x0ab\\x09c\\x7fd\\xc2\\x9be\u00e9'


@case
def control_characters_in_names():
    name, told = CONTROLS, CONTROLS_TOLD
    done = subprocess.run([BPF, 'list', name], capture_output=True, timeout=60, check=False)
    require('list of a name with control characters', (done.returncode, done.stdout, done.stderr), (3, b'', f'cannot read {told}: No such file or directory\n'.encode()))
    require('asm onto such a name', asm('no/' + name), (3, b'', f'cannot write no/{told}: No such file or directory\n'.encode()))


@case
def control_characters_in_mistakes():
    """A mistake in the words is that of the words as they are told: a command, an option, a number, a value, one word too many."""
    def mistake(*words):
        done = subprocess.run([BPF, *words], capture_output=True, timeout=60, check=False)
        return done.returncode, done.stdout, done.stderr
    for words in (['%'], ['list', '--%', 'a'], ['list', '--slots=%', 'a'], ['infer', 'a', '%', 'out'], ['infer', 'a', '1%', 'out'], ['run', 'a', '%', '--steps', '%'],
                  ['run', 'a', '--steps=%'], ['list', 'a', '%'], ['list', 'a', '-%'], ['asm', '%'], ['check', '%', '%', '--work', '--work'], ['help', '%']):
        got, told = [mistake(*[word.replace('%', by) for word in words]) for by in (CONTROLS, CONTROLS_TOLD)]
        require(f'{words} with control characters', got, told)
        require(f'{words}', (got[:2], got[2][:7]), ((2, b''), b'error: '))
    require('a command that is none', mistake('x\x1b]0;y\x07\n')[2].splitlines()[0], b"error: unrecognized subcommand 'x\\x1b]0;y\\x07\\x0a'")
    require('a number that is none', mistake('infer', 'a', '9\n', 'out')[2].splitlines()[0], b"error: invalid value '9\\x0a' for '<LEN>': invalid digit found in string")


@case
def words_that_arent_utf_8():
    write(b'b\xffd')
    for words in ([b'groups', b'b\xffd'], [b'asm', b'a.asm', b'\xe2\x82'], [b'\x80'], [b'run', b'a.asm', b'none', b'--steps', b'\xc0\x80']):
        done = subprocess.run([os.fsencode(BPF), *words], capture_output=True, timeout=60, check=False)
        require(f'{words}', (done.returncode, done.stdout, done.stderr), (2, b'', b"words that aren't UTF-8\n"))
    require('what is left', sorted(os.listdir(b'.')), [b'a.asm', b'b\xffd'])


def main():
    os.umask(0o022)
    home = os.getcwd()
    try:
        for test in CASES:
            with tempfile.TemporaryDirectory(prefix='bpf-names-') as folder:
                os.chdir(folder)
                write('a.asm', TEXT.encode())
                test()
                os.chdir(home)
    except Wrong as it:
        print(f'names: {test.__name__}: {it}')
        return 1
    finally:
        os.chdir(home)
    print(f'names: {len(CASES)} kinds of names and words, no wrong answer')
    return 0


sys.exit(main())

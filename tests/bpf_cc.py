#!/usr/bin/env python3
"""bpf-cc held to its words: bpf_cc.py BPF [OBJECTS [SEED]]

What it links of the object files of tests/objects answers what native C answers. Each of OBJECTS altered ones (1,000 where it isn't said) gives an
image or a line of words, in a second. Files are whole or as they were; names, links, folders, devices and pipes are what docs/COMMAND.md says of
OUT. No compiler for BPF is wanted: where one runs, it is a script that hands out an object file. tests/compilers.sh has what wants one.
"""
import errno
import importlib.machinery
import importlib.util
import os
import pathlib
import random
import signal
import stat
import subprocess
import sys
import tempfile
import time

ROOT = pathlib.Path(__file__).resolve().parent.parent
TOOL = ROOT / 'examples/c/bpf-cc'
OBJECTS = ROOT / 'tests/objects'
sys.dont_write_bytecode = True


def tool():
    """The tool as a module."""
    loader = importlib.machinery.SourceFileLoader('bpf_cc_tool', str(TOOL))
    module = importlib.util.module_from_spec(importlib.util.spec_from_loader('bpf_cc_tool', loader))
    sys.modules['bpf_cc_tool'] = module
    loader.exec_module(module)
    return module


CC = tool()


def holds(what, words):
    if not what:
        sys.exit(f'bpf_cc: {words}')


# ---- what is linked


def linked(data, entry='filter', is_clang=True, big=False):
    """The image and the lines of an object file."""
    words = CC.Words('big' if big else 'little', None, entry, 'tables.c', '-', [])
    return CC.linked(data, words, CC.Source(words.source, [words.source]), CC.Library(), is_clang)


NATIVE = r'''
#include "%s"
#include <stdio.h>
int main(void)
{
    u8 c[24];
    for (int k = 0; k < 200; k++) {
        for (int i = 0; i < 24; i++)
            printf("%%02x", c[i] = (k * 37 + i * i * 11 + k * i) >> (k & 3));
        printf(" %%llu\n", filter(c, 24));
    }
}
'''


def links(bpf, folder):
    """The images of each compiler's object answer as native C does, and name the lines of C."""
    native = folder / 'native'
    subprocess.run([os.environ.get('CC', 'cc'), '-fwrapv', '-funsigned-char', '-w', '-x', 'c', '-', '-o', native],
                   input=(NATIVE % (OBJECTS / 'tables.c')).replace('-funsigned-char', ''), text=True, check=True)
    rows = [line.split() for line in subprocess.run([native], capture_output=True, text=True).stdout.splitlines()]
    (folder / 'contexts').write_text(''.join(row[0] + '\n' for row in rows))
    for path in sorted(OBJECTS.glob('*.o')):
        big = '.big' in path.name
        image, lines = linked(path.read_bytes(), is_clang='clang' in path.name, big=big)
        (folder / 'image').write_bytes(image)
        words = [bpf, 'run', *(['--big'] if big else []), folder / 'image', '--contexts', folder / 'contexts', '--steps', '10000']
        said = subprocess.run(words, capture_output=True, text=True).stdout
        holds([line.split()[1] for line in said.splitlines()] == [row[1] for row in rows], f'{path.name} answers otherwise than native C')
        holds('spare' not in lines and 'thrice(u64 i)' in lines and 'lays next' in lines, f'{path.name} has other lines: {lines}')
    print(f'bpf_cc: {len(list(OBJECTS.glob("*.o")))} object files linked, each answers {len(rows)} contexts as native C does')


def frames():
    """How much of its frame a function uses, by small pieces of code."""
    insn = lambda *fields: CC.Insn(*fields).packed('<')
    end = insn(CC.EXIT, 0, 0, 0, 0)
    rows = [
        ([insn(CC.STORE, 10, 1, -24, 0)], -24),
        ([insn(CC.MOVE, 3, 10, 0, 0), insn(CC.ADD_NUMBER, 3, 0, 0, -64)], -64),
        ([insn(CC.MOVE, 3, 10, 0, 0), insn(CC.ADD, 3, 4, 0, 0), insn(CC.LOAD_8, 5, 3, -40, 0)], -40),
        ([insn(CC.MOVE_NUMBER, 3, 0, 0, -80), insn(CC.ADD, 3, 10, 0, 0)], -80),
        ([insn(CC.MOVE_NUMBER, 3, 0, 0, -80), insn(CC.ADD_NUMBER, 3, 0, 0, -97)], 0),
        ([insn(CC.MOVE, 3, 10, 0, 0), insn(CC.STORE, 10, 3, -8, 0), insn(CC.LOAD_8, 4, 10, -8, 0), insn(CC.ADD_NUMBER, 4, 0, 0, -48)], -48),
        ([insn(CC.MOVE, 3, 10, 0, 0), insn(CC.JA, 0, 0, 1, 0), insn(CC.MOVE_NUMBER, 3, 0, 0, 0), insn(CC.STORE, 3, 1, -32, 0)], -32),
    ]
    for code, lowest in rows:
        found = CC.Tied('<', b''.join(code) + end).lowest
        holds(found == lowest, f'a frame of {-lowest} bytes is taken for one of {-found}')


# ---- altered object files


def altered(rng, data):
    """An object file with something changed: bytes, words, pieces, or its length."""
    data = bytearray(data)
    for _ in range(rng.choice((1, 1, 2, 4, 16))):
        if len(data) < 64:
            break
        kind, at = rng.randrange(8), rng.randrange(len(data) - 8)
        if kind < 2:
            data[at] = rng.choice((0, 1, 127, 128, 255, rng.randrange(256)))
        elif kind < 4:
            table = int.from_bytes(data[40:48], 'little') 
            at = table + rng.randrange(64 * 24) if table + 64 * 24 < len(data) and rng.random() < 0.7 else rng.randrange(64)
            number = rng.choice((0, 1, 7, 2 ** 31, 2 ** 32 - 1, 2 ** 63, 2 ** 64 - 1, len(data), rng.randrange(2 ** 16)))
            data[at:at + 8] = number.to_bytes(8, 'little') if rng.random() < 0.5 else number.to_bytes(8, 'little')[:4] + data[at + 4:at + 8]
        elif kind == 4:
            del data[at:at + rng.choice((1, 8, 64, 4096))]
        elif kind == 5:
            data[at:at] = data[:rng.choice((1, 8, 64))]
        elif kind == 6:
            del data[at:]
        else:
            other = rng.randrange(max(1, len(data) - 64))
            data[at:at + 32] = data[other:other + 32]
    return bytes(data)


def alters(count, seed):
    """Each gives an image or a line of words, in time."""
    rng = random.Random(seed)
    given = [(path.read_bytes(), 'clang' in path.name) for path in sorted(OBJECTS.glob('*.o'))]
    images, longest = 0, 0.0
    signal.signal(signal.SIGALRM, lambda *_: sys.exit(f'bpf_cc: an altered object file takes more than 10 seconds (seed {seed})'))
    for number in range(count):
        data, is_clang = rng.choice(given)
        data = altered(rng, data)
        began = time.monotonic()
        signal.alarm(10)
        try:
            image, lines = linked(data, rng.choice(('filter', None)), is_clang)
            holds(len(image) % 8 == 0 and all(line.isprintable() for line in lines.split('\n')), 'half a slot, or a line that isn\'t one')
            images += 1
        except CC.Trouble as trouble:
            holds(str(trouble).isprintable() and trouble.status in (1, 3), f'words that are no line: {trouble!r}')
        except Exception as error:
            sys.exit(f'bpf_cc: altered object file {number} of seed {seed}: {type(error).__name__}: {error}')
        signal.alarm(0)
        longest = max(longest, time.monotonic() - began)
    print(f'bpf_cc: {count} altered object files, {images} images, none a crash; at most {longest:.1f} s')


# ---- files and names


class Room:
    """A folder with a source and a compiler that hands out an object file."""

    def __init__(self, folder):
        self.folder = folder
        (folder / 'tables.c').write_bytes((OBJECTS / 'tables.c').read_bytes())
        self.compiler = folder / 'cc'
        self.serve(OBJECTS / 'clang-14.o')

    def serve(self, path):
        """The compiler gives this file from now on. It says that it is clang, and what it was given to compile."""
        self.compiler.write_text('#!/bin/sh\n[ "$1" = --version ] && echo "clang version 14.0.6" && exit\n'
                                 'for last; do :; done\ncase $last in */library) exit 1;; esac\n'
                                 'while [ "$1" != -MF ]; do shift; done\necho "object: tables.c" >"$2"\n' f'cp "{path}" "$last"\n')
        self.compiler.chmod(0o755)

    def run(self, *words, env=None, **more):
        env = {**os.environ, 'BPF_CC': str(self.compiler), **(env or {})}
        return subprocess.run([sys.executable, TOOL, *words], cwd=self.folder, env=env, capture_output=True, timeout=60, **more)

    def says(self, status, words, *arguments, **more):
        """How it ends, and what it says in one line."""
        ran = self.run(*arguments, **more)
        said = ran.stderr.decode('utf-8', 'replace')
        holds(ran.returncode == status and words in said and said.count('\n') <= 1 and 'Traceback' not in said,
              f'{arguments}: status {ran.returncode}, {said!r}, and not {status}, {words!r}')
        return ran.stdout

    def left(self):
        return sorted(entry.name for entry in self.folder.iterdir() if entry.name not in ('tables.c', 'cc'))

    def clean(self):
        for name in self.left():
            path = self.folder / name
            path.rmdir() if path.is_dir() and not path.is_symlink() else path.unlink()


def names(room):
    """Names of every kind, and words that aren't understood."""
    odd = ['-o', '--x', 'a b\nc.img', 'ä\udcff$(x)`;\'"', '-']
    for name in odd:
        source = room.folder / (name + '.c')
        source.write_bytes((OBJECTS / 'tables.c').read_bytes())
        stdout = room.says(0, '', '--entry', 'filter', '--', name + '.c', name)
        holds((name == '-') == bool(stdout), f'standard output has {len(stdout)} bytes for OUT {name!r}')
        wanted = {name + '.c'} | (set() if name == '-' else {name, name + '.lines'})
        holds(set(room.left()) == wanted, f'OUT {name!r} left {room.left()}')
        room.clean()
    entry = ('--entry', 'filter', 'tables.c')
    for words in ((), ('tables.c',), ('--entry', 'filter'), ('--entry',), ('--small', 'tables.c', 'o'), ('', 'o'), ('tables.c', '')):
        room.says(2, 'usage: bpf-cc', *words)
    holds(b'usage: bpf-cc' in room.says(0, '', '--help'), '--help goes to standard error')
    room.says(1, "functions that aren't static, ", 'tables.c', 'o')
    room.says(1, 'has no function `other`', '--entry', 'other', 'tables.c', 'o')
    room.says(1, 'has no function `filter` in apart', '--section', 'apart', *entry, 'o')
    room.says(3, 'cannot read nothing.c: No such file', 'nothing.c', 'o')
    room.says(3, "cannot read .: it isn't a plain file", '.', 'o')
    os.mkfifo(room.folder / 'pipe')
    room.says(3, "cannot read pipe: it isn't a plain file", 'pipe', 'o')
    room.says(3, 'no none is there', *entry, 'o', env={'BPF_CC': 'none'})
    room.says(3, 'true wrote no object file', *entry, 'o', env={'BPF_CC': 'true'})
    room.says(3, 'cannot write tables.c: it is the source', *entry, 'tables.c')
    holds(room.left() == ['pipe'], f'a refusal left {room.left()}')
    room.clean()


def outs(room):
    """What stands at OUT: nothing, a file, links, a folder, a device."""
    entry = ('--entry', 'filter', 'tables.c')
    folder = room.folder
    (folder / 'kept').write_text('old')
    os.link(folder / 'kept', folder / 'other')
    (folder / 'kept').chmod(0o640)
    (folder / 'link').symlink_to('next')
    (folder / 'next').symlink_to('kept')
    room.says(0, '', *entry, 'link')
    image = (folder / 'kept').read_bytes()
    holds((folder / 'link').is_symlink() and (folder / 'next').is_symlink(), 'the links are gone')
    holds(image[:4] != b'old' and stat.S_IMODE((folder / 'kept').stat().st_mode) == 0o640, 'the mode is another one')
    holds((folder / 'other').read_text() == 'old', 'the older file under its other name is written to')
    (folder / 'turn').symlink_to('turn')
    (folder / 'dir').mkdir()
    for name, words in (('dir', 'Is a directory'), ('turn', 'Too many levels'), ('none/o', 'No such file'), ('tables.c/o', 'Not a directory')):
        room.says(3, f'cannot write {name}: {words}', *entry, name)
    (folder / 'half.lines').mkdir()
    room.says(3, 'cannot write half.lines: Is a directory', *entry, 'half')
    holds(not (folder / 'half').exists(), 'OUT is made without its lines')
    room.says(0, '', *entry, '/dev/null')
    room.says(3, 'cannot write /dev/full: No space left', *entry, '/dev/full')
    holds(not any('partial' in name for name in room.left()), f'left behind: {room.left()}')
    room.clean()
    long = 'x' * 249
    room.says(0, '', *entry, long)
    holds(room.left() == [long, long + '.lines'], f'a long name left {room.left()}')
    room.clean()


def failures(room):
    """Where writing fails, what stood there stays."""
    folder = room.folder
    for name in ('o', 'o.lines'):
        (folder / name).write_text('old')
    real = os.fsync
    for failing in (1, 2):
        calls = []

        def fsync(handle):
            calls.append(handle)
            if len(calls) == failing:
                raise OSError(errno.ENOSPC, os.strerror(errno.ENOSPC))
            real(handle)
        os.fsync = fsync
        try:
            CC.put(str(folder / 'o'), b'new', 'new')
            holds(False, 'a full disk goes unnoticed')
        except CC.Trouble as trouble:
            holds('No space left on device' in str(trouble), f'of a full disk it says {trouble}')
        finally:
            os.fsync = real
        holds(room.left() == ['o', 'o.lines'] and (folder / 'o').read_text() == (folder / 'o.lines').read_text() == 'old', 'a full disk leaves half')
    room.clean()


def sources(folder):
    """Lines come from files that the compiler has read, whatever a name in `#line` says."""
    (folder / 'read.h').write_text('one\ntwo \tends\n')
    (folder / 'secret').write_text('hidden\n')
    os.mkfifo(folder / 'pipe')
    source = CC.Source('x.c', [str(folder / 'read.h'), str(folder / 'pipe')])
    signal.alarm(10)
    for name, line, told in (('read.h', 2, 'read.h:2 two ends'), ('./read.h', 1, 'read.h:1 one'), ('read.h', 9, 'read.h:9'), ('read.h', 0, 'read.h: no line of its own'),
                             ('secret', 1, 'secret:1'), ('pipe', 1, 'pipe:1'), ('a\nb\x1b', 1, 'a\\x0ab\\x1b:1'), ('z\0', 1, 'z\\x00:1')):
        said = source.line(CC.Row(1, 0, str(folder / name), line))
        holds(said == told, f'of {name}:{line} OUT.lines has {said!r}, and not {told!r}')
    signal.alarm(0)
    for text, wanted in (('object: a.c b\\ c.h \\\n  d$$.h e\\#f.h\n', ['a.c', 'b c.h', 'd$.h', 'e#f.h']), ('', []), ('object:', [])):
        holds(CC.dependencies(text) == wanted, f'the names of {text!r} are {CC.dependencies(text)}')


def helps():
    """The line of the source is told as the compilers tell it; clang 14 writes its words behind the place of an instruction."""
    divides = 'Unsupport signed division for DAG: 0x24f6c948: i32 = sdiv 0x24f6ca80, Constant:i32<2>, x/a.c:19:26'
    for said, place in ((f'Error at line 19: {divides}Please convert to unsigned div/mod.\n', 'x/a.c:19'), (f'{divides}\n', 'x/a.c:19'),
                        ('x/a.c:6:3: error: unsupported signed division\n', 'x/a.c:6'), ('unsupported signed division\n', 'b.c')):
        words = CC.helped(said, 'b.c', CC.Compiler('clang', True, 14))
        holds(words.startswith(f'{place}: divides numbers with a sign'), f'of {said!r} bpf-cc says {words!r}')


def served(room, count, seed):
    """Altered object files by way of the whole tool: OUT is there, or a line says why not, and nothing else is written."""
    rng = random.Random(seed)
    data = (OBJECTS / 'clang-14.o').read_bytes()
    with tempfile.TemporaryDirectory(prefix='bpf-cc-object-') as name:
        path = pathlib.Path(name) / 'object'
        room.serve(path)
        for _ in range(count):
            path.write_bytes(altered(rng, data))
            ran = room.run('--entry', 'filter', 'tables.c', 'o')
            said = ran.stderr.decode('utf-8', 'replace')
            holds('Traceback' not in said and ran.returncode in (0, 1, 3), f'status {ran.returncode}, {said}')
            holds(room.left() == (['o', 'o.lines'] if ran.returncode == 0 else []) and bool(said) == bool(ran.returncode), f'left {room.left()}, said {said!r}')
            room.clean()


def main():
    bpf = pathlib.Path(sys.argv[1]).resolve()
    count = int(sys.argv[2]) if len(sys.argv) > 2 else 1000
    seed = int(sys.argv[3]) if len(sys.argv) > 3 else random.randrange(10 ** 6)
    # The objects name their source as it lies here.
    os.chdir(OBJECTS)
    with tempfile.TemporaryDirectory(prefix='bpf-cc-test-') as name:
        folder = pathlib.Path(name)
        links(bpf, folder)
        frames()
        alters(count, seed)
        for part in (names, outs, failures):
            room = folder / part.__name__
            room.mkdir()
            part(Room(room))
        (folder / 'sources').mkdir()
        sources(folder / 'sources')
        helps()
        (folder / 'served').mkdir()
        served(Room(folder / 'served'), 20, seed)
    print('bpf_cc: names, links, folders, devices, a full disk and lines are as they are told')


if __name__ == '__main__':
    main()

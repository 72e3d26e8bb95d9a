#!/usr/bin/env python3
"""Runs the commands that the documents show, and compares what they print: documents.py PREFIX

PREFIX is where ./install has put everything. A command stands in an indented block behind `$ `, and the lines below it are all that it
prints; `...` on a line of its own stands for any lines, and within a line for any characters. `cat` of a file that isn't there is how a
document shows a source: the file is made so. The commands of a document run one behind the other in a copy of the examples, /tmp being a
folder of its own, and /tmp/bpf being PREFIX. A section with a line `<!-- needs: WORD -->` is left out where the command's help doesn't know the word; the word `clang`
is known where the compiler is there that examples/c/VERSION names. What GUIDE.md prints is that compiler's: else it is left out whole.
"""
import os
import pathlib
import re
import shutil
import subprocess
import sys
import tempfile

ROOT = pathlib.Path(__file__).resolve().parent.parent
PREFIX = pathlib.Path(sys.argv[1]).resolve()


def blocks_of(text):
    """The indented blocks, without the indentation."""
    for block in re.findall(r'(?:^    .*\n|^\n(?=    ))+', text, re.M):
        yield [line[4:] for line in block.splitlines()]


def steps_of(text):
    """The commands in order, each with the lines that it prints."""
    steps = []
    for block in blocks_of(text):
        shown = None
        for line in block:
            if line.startswith('$ '):
                shown = []
                steps.append((line[2:], shown))
            elif shown is not None:
                shown.append(line)
    return steps


def sections_of(text, known):
    """The sections that the command has all words for."""
    for section in re.split(r'^(?=## )', text, flags=re.M):
        if all(word in known for word in re.findall(r'<!-- needs: (\S+) -->', section)):
            yield section


def form_of(shown):
    """What is printed, as a regular expression."""
    lines = [r'(?:.*\n)*?' if line == '...' else re.escape(line).replace(r'\.\.\.', '.*') + r'\n' for line in shown]
    return re.compile(''.join(lines))


def made(command, shown, room):
    """Makes the file that a `cat` shows, where there is none."""
    name = re.fullmatch(r'cat (\S+)', command)
    path = room / name[1] if name else None
    if path and not path.exists():
        path.write_text('\n'.join(shown).rstrip('\n') + '\n')


def tried(name, text, folder):
    """How many commands of a document say what it shows; ends where one doesn't."""
    room = folder / name
    shutil.copytree(ROOT / 'examples', room / 'examples')
    (room / 'bpf').symlink_to(PREFIX / 'bin/bpf')
    shell = dict(os.environ, PATH=f'{PREFIX}/bin:{os.environ["PATH"]}', PKG_CONFIG_PATH=f'{PREFIX}/lib/pkgconfig')
    shell.pop('BPF_CC', None)
    steps = steps_of(text)
    for command, shown in steps:
        while shown and not shown[-1].strip():
            shown.pop()
        if command.startswith('cd '):
            room = (room / command[3:]).resolve()
            continue
        made(command, shown, room)
        ran = subprocess.run(['bash', '-c', command.replace('/tmp/', f'{folder}/')], cwd=room, env=shell, capture_output=True, text=True, timeout=120)
        said = (ran.stdout + ran.stderr).replace(f'{folder}/', '/tmp/')
        if not form_of(shown).fullmatch(said):
            sys.exit(f'{name}: $ {command}\nsays:\n{said}and not:\n' + '\n'.join(shown))
    return len(steps)


def main():
    known = ''.join(subprocess.run([PREFIX / 'bin/bpf', *words], capture_output=True, text=True).stderr for words in (['--help'], ['explain', '--help']))
    kept = (ROOT / 'examples/c/VERSION').read_text()
    clang = subprocess.run(['clang', '--version'], capture_output=True, text=True).stdout if shutil.which('clang') else ''
    has_clang = clang.startswith(kept.rstrip('\n'))
    known += 'clang' * has_clang
    for name in ('README.md', 'docs/GUIDE.md', 'docs/HOSTS.md', 'docs/COMMAND.md', 'docs/EXPLAIN.md', 'docs/CHECKER.md', 'docs/CLASSIC.md', 'docs/SECCOMP.md'):
        if name == 'docs/GUIDE.md' and not has_clang:
            print(f'documents: {name} is left out: its images are by {kept}', end='')
            continue
        with tempfile.TemporaryDirectory(prefix='bpf-documents-') as folder:
            for host in ('filter', 'filter_rs'):
                if (PREFIX / host).exists():
                    os.symlink(PREFIX / host, f'{folder}/{host}')
            os.symlink(PREFIX, f'{folder}/bpf')
            count = tried(os.path.basename(name), ''.join(sections_of((ROOT / name).read_text(), known)), pathlib.Path(folder))
            print(f'documents: {count} commands of {name} print what it shows')


if __name__ == '__main__':
    main()

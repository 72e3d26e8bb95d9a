#!/usr/bin/env python3
"""version.py PREFIX [--renew]: holds the number of bpf.h, BPF_HOST_VERSION, to what it stands for. PREFIX is where ./install has put header and library.

version.sums has two lines for each number: a sum of the header's declarations, and one of the words that bpf_prepare and bpf_load write of a small
program in both byte orders, their mark left out, which goes with the number. Where one is another, hosts and libraries of one number don't fit together, and the
number goes up. --renew writes the lines of a number that has none."""
import hashlib
import os
import pathlib
import re
import struct
import subprocess
import sys
import tempfile

KEPT = pathlib.Path(__file__).resolve().parent / 'version.sums'
# Opcode, destination, source, offset, immediate: each kind of operand, both slots of a wide constant, a branch, a call.
PROGRAM = [
    (0x18, 0, 0, 0, 0x55667788), (0, 0, 0, 0, 0x11223344), (0x71, 6, 1, 3, 0), (0x25, 6, 0, 1, 3), (0x0F, 0, 6, 0, 0), (0x7B, 10, 0, -8, 0),
    (0x85, 0, 1, 0, 1), (0x95, 0, 0, 0, 0), (0xB4, 0, 0, 0, -7), (0x95, 0, 0, 0, 0),
]
WRITER = r'''
#include <bpf.h>
#include <stdio.h>

/* Prints the words of the images on standard input, little and big, each of LEN bytes: prepared, then loaded. */
int main(void) {
    static unsigned char image[LEN];
    static char certificate[4096];
    static uint64_t words[256];
    for (uint32_t order = BPF_LITTLE; order <= BPF_BIG; order++) {
        size_t len = 0, prepared = bpf_prepared_size(LEN), loaded = bpf_loaded_size(LEN);
        if (fread(image, 1, LEN, stdin) != LEN || prepared > 256 || loaded > 256) return 1;
        if (bpf_infer(image, LEN, order, 4, 8, 0, certificate, sizeof certificate, &len, NULL) != BPF_YES) return 2;
        if (bpf_prepare(image, LEN, order, words, prepared) != BPF_YES) return 3;
        for (size_t i = 0; i < prepared; i++) printf("%llx ", (unsigned long long)words[i]);
        puts("");
        if (bpf_load(image, LEN, order, certificate, len, 1000, words, loaded, NULL, NULL) != BPF_YES) return 4;
        for (size_t i = 0; i < loaded; i++) printf("%llx ", (unsigned long long)words[i]);
        puts("");
    }
    return 0;
}
'''


def image_of(order):
    """The program in a byte order, < or >: the registers change places, too."""
    return b''.join(struct.pack(order + 'BBhi', code, dst | src << 4 if order == '<' else dst << 4 | src, off, imm) for code, dst, src, off, imm in PROGRAM)


def declarations_of(header):
    """What a header declares: without comments, the number, the bodies of functions and blanks."""
    text = re.sub(r'/\*.*?\*/', ' ', header, flags=re.S)
    text = re.sub(r'#define BPF_HOST_VERSION .*', '', text)
    made, at = '', 0
    for found in re.finditer(r'^static inline [^;{]*\)\s*(?=\{)', text, re.M):
        made += text[at:found.end()] + ';'
        at, depth = found.end(), 0
        while True:
            depth += {'{': 1, '}': -1}.get(text[at], 0)
            at += 1
            if not depth:
                break
    return ' '.join((made + text[at:]).split())


def number_in(header):
    return int(re.search(r'^#define BPF_HOST_VERSION (\d+)$', header, re.M)[1])


def words_of(prefix, number):
    """The words that the library writes, a line each, with `mark` for the mark of its number."""
    with tempfile.TemporaryDirectory() as folder:
        source, program = pathlib.Path(folder, 'words.c'), pathlib.Path(folder, 'words')
        source.write_text(WRITER)
        little = image_of('<')
        build = [os.environ.get('CC', 'cc'), '-Wall', '-Werror', f'-DLEN={len(little)}', f'-I{prefix}/include', source, f'{prefix}/lib/libbpf_host.a', '-o', program]
        subprocess.run(build, check=True)
        said = subprocess.run([program], input=little + image_of('>'), capture_output=True, check=True).stdout.decode()
    lines = said.splitlines()
    for i, line in enumerate(lines):
        mark = f'{2 * number + i // 2:x}'
        words = line.split()
        if words.count(mark) != 1:
            sys.exit(f'version: the mark {mark} of version {number} stands {words.count(mark)} times in {line}')
        words[words.index(mark)] = 'mark'
        lines[i] = ' '.join(words)
    return '\n'.join(lines)


def sum_of(text):
    return hashlib.sha256(text.encode()).hexdigest()


def look_at_self(header):
    """Comments, blanks and bodies are no declarations; a type, a name, a value and a new function are."""
    right = declarations_of(header)
    same = [('/* ---- bytes', '/* ---- some bytes'), ('    int32_t answer;\n', ''), ('uint32_t bpf_host_version(void);', 'uint32_t\n    bpf_host_version(void);')]
    other = [('uint32_t limit', 'uint64_t limit'), ('BPF_TOO_LONG = -4', 'BPF_TOO_LONG = -5'), ('uint64_t condition;', ''), ('static inline uint32_t bpf_version(void) {', 'static inline uint64_t bpf_version(void) {'),
             ('size_t bpf_host_loaded_size', 'void bpf_host_more(void);\nsize_t bpf_host_loaded_size')]
    for old, new in same + other:
        if old not in header or (declarations_of(header.replace(old, new)) == right) != ((old, new) in same):
            sys.exit(f'version: {old!r} as {new!r} is {"another" if (old, new) in same else "the same"} declaration')


def main():
    prefix = pathlib.Path(sys.argv[1]).resolve()
    header = (prefix / 'include/bpf.h').read_text()
    look_at_self(header)
    number = number_in(header)
    now = {'declarations': sum_of(declarations_of(header)), 'words': sum_of(words_of(prefix, number))}
    kept = [line.split() for line in KEPT.read_text().splitlines() if line and not line.startswith('#')]
    of_number = {what: sum for version, what, sum in kept if int(version) == number}
    if sys.argv[2:] == ['--renew'] and not of_number:
        with KEPT.open('a') as file:
            file.writelines(f'{number} {what} {sum}\n' for what, sum in now.items())
        of_number = now
    if not of_number:
        sys.exit(f'version: tests/version.sums has no lines of {number}: tests/version.py PREFIX --renew writes them')
    lost = [what for what in now if of_number.get(what) != now[what]]
    if lost:
        sys.exit(f'version: {" and ".join(lost)} changed, and BPF_HOST_VERSION is still {number}: it goes up, with those of crates/bpf_host_calls, bpf_command and bpf-host. '
                 f'Where {number} never landed, its lines of tests/version.sums go out, and tests/version.py PREFIX --renew writes them again')
    print(f'version: {number} has the declarations and the words that it had')


if __name__ == '__main__':
    main()

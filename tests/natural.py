#!/usr/bin/env python3
"""Programs that nobody wrote for the checker, as they were written: natural.py BPF

Each of tests/natural becomes an image by the compiler that BPF_CC names, is hardened and certified, and answers on contexts made here what native
C answers, within the bound. A program that isn't shown to keep its meaning is hardened without, and one that isn't hardened at all is left out,
but for those of SHOWN, of which each compiler's image is shown, and `certify` says yes; UNSHOWN are images of which that isn't so yet. The first line of a program says how many bytes its context
has. Of a program that is shown one instruction of the new image after another is altered: where the answers are others then, and the certificate
still certifies it, `follows` refuses it.
"""
import os
import pathlib
import random
import re
import subprocess
import sys
import tempfile

ROOT = pathlib.Path(__file__).resolve().parent.parent
SOURCES = ROOT / 'tests/natural'
BPF = pathlib.Path(sys.argv[1]).resolve()
CC = os.environ.get('BPF_CC', 'clang')
SHOWN = {'aho', 'base64enc', 'csv', 'snmp', 'sudoku', 'aligned', 'backwards', 'cursor', 'fnvwalk', 'quic', 'rol', 'sni', 'swaptrie', 'walkptr'}
# clang 19 and later spill an address among numbers, so that a load at the old address may reach a slot with something else (M4).
UNSHOWN = {('sudoku', 'clang-19'), ('sudoku', 'clang-22')}
# So many instructions of a new image are altered, each to `r0 = 13`.
ALTERED, ANSWER = 40, bytes.fromhex('b70000000d000000')
# What the programs read: text, small numbers, and anything.
LETTERS = b'hers his she \r\nhost: www.example.com:8080"12,34"/sensors/x/temp GET '
# How packets begin that a program takes, which random bytes seldom do.
IPV4 = bytes.fromhex('450000280000000040110000c0a80001c0a80002') + b'\x12\x34\x00\x35'
HELLO = bytes.fromhex('16030100500100004c0303') + bytes(range(32)) + bytes.fromhex('0000021301010000120000000e000c000009') + b'localhost'
BEGINNINGS = {
    'cursor': [bytes(12) + b'\x08\x00' + IPV4, bytes(12) + b'\x81\x00\x00\x07\x08\x00' + IPV4, bytes(12) + b'\x88\xa8\x00\x07\x81\x00\x00\x07\x08\x00' + IPV4],
    'quic': [bytes.fromhex('c000000001') + b'\x08' + bytes(8) + b'\x05' + bytes(5), bytes.fromhex('c000000001') + b'\x14' + bytes(20) + b'\x15'],
    'sni': [HELLO, HELLO[:-4]],
    'swaptrie': [bytes((at * 7 + 3) % 34 if at % 4 < 2 else at % 5 for at in range(158)) + word for word in (b'\xff' * 4, b'\xa5\x00\xff\x01', bytes(4))],
}

NATIVE = r'''
#include <stdio.h>
#include <string.h>
unsigned long long prog(const unsigned char *, unsigned long long);
int main(void)
{
    static char line[8200];
    static unsigned char bytes[4096];
    while (fgets(line, sizeof line, stdin)) {
        size_t size = strcspn(line, "\n") / 2;
        for (size_t at = 0; at < size; at++) {
            unsigned byte;
            sscanf(line + 2 * at, "%2x", &byte);
            bytes[at] = byte;
        }
        printf("done %llu\n", prog(bytes, size));
    }
}
'''


def ran(*words, given=None):
    return subprocess.run([str(word) for word in words], input=given, capture_output=True, text=True, timeout=300)


def contexts(name, size):
    """Contexts of a size, one a line, in hexadecimal."""
    rng = random.Random(name)
    for at in range(48):
        letters = (LETTERS, bytes(range(8)), bytes(range(256)))[at % 3]
        yield bytes(rng.choice(letters) for _ in range(size)).hex()
    for beginning in BEGINNINGS.get(name, []):
        yield (beginning + bytes(size))[:size].hex()
        yield (beginning + b'\x11' * size)[:size].hex()
    yield bytes(size).hex()
    yield (b'\xff' * size).hex()
    yield (b'GET / HTTP/1.1\r\nHost: a.Example.com:81\r\n' * size)[:size].hex()
    yield (b'\x30\x40\x00\x0esensors/a/temp' + bytes(size))[:size].hex()
    yield bytes((k // 9 * 3 + k // 27 + k) % 9 + 1 for k in range(size)).hex()


def is_excused(said):
    """Whether this compiler can't make the image, and its words are the right ones."""
    return 'divides numbers with a sign, which takes clang 18 or later' in said


def certified(image, size, folder):
    """The hardened image, its certificate, and its bound; whether the meaning is shown to be kept; nothing where it isn't hardened."""
    new, certificate = folder / 'new', folder / 'cert'
    beside = ['--certificate', certificate, '--notes', folder / 'notes']
    is_shown = ran(BPF, 'harden', image, size, new, *beside).returncode == 0
    if not is_shown and ran(BPF, 'harden', '--unproved', image, size, new, *beside).returncode != 0:
        return None
    said = ran(BPF, 'check', new, certificate).stdout
    bound = re.fullmatch(r'yes length \d+ bound (\d+)\n', said)
    if not bound:
        sys.exit(f'natural: {image.name} is hardened, and not certified: {said}')
    told = ran(BPF, 'follows', image, new, folder / 'notes', certificate).stdout
    if is_shown != bool(re.match(rf'yes length {size} turns (65536|any) bound {bound[1]}\b', told)):
        sys.exit(f'natural: {image.name} is {"" if is_shown else "not "}shown by harden, and follows says {told}')
    return new, certificate, int(bound[1]), is_shown


def altered(image, new, certificate, folder, wanted):
    """How many altered images answer otherwise and are certified still: each is refused by `follows`."""
    rng, count, other = random.Random(image.name), 0, folder / 'other'
    code = new.read_bytes()
    slots = [at for at in range(0, len(code), 8) if code[at] not in (0x00, 0x18)]
    for at in rng.sample(slots, min(len(slots), ALTERED)):
        other.write_bytes(code[:at] + ANSWER + code[at + 8:])
        answers = ran(BPF, 'run-checked', other, certificate, '--contexts', folder / 'contexts')
        if answers.returncode != 0 or answers.stdout == wanted:
            continue
        told = ran(BPF, 'follows', image, other, folder / 'notes', certificate)
        if told.returncode != 1 or not re.fullmatch(r'no M\d at slot \d+\n', told.stdout):
            sys.exit(f'natural: {image.name} with another answer at slot {at // 8} of the new image: follows says {told.stdout}')
        count += 1
    return count


def compared(source, folder):
    """One program: whether its image was shown, hardened only, or not; how many answers were compared; how many altered images were refused."""
    size = int(re.search(r'context (\d+)', source.read_text())[1])
    image = folder / source.stem
    made = ran(ROOT / 'examples/c/bpf-cc', source, image, '-w')
    if made.returncode != 0:
        return ('no image', 0, 0) if is_excused(made.stderr) else sys.exit(f'natural: {source.name} by {CC}: {made.stderr}')
    got = certified(image, size, folder)
    must_show = source.stem in SHOWN and (source.stem, CC) not in UNSHOWN
    if got is None or not got[3] and must_show:
        return ('refused', 0, 0) if not must_show else sys.exit(f'natural: {source.name} by {CC} isn\'t shown to keep its meaning')
    new, certificate, bound, is_shown = got
    lines = ''.join(line + '\n' for line in contexts(source.stem, size))
    (folder / 'contexts').write_text(lines)
    wanted = ran(folder / f'{source.stem}.native', given=lines).stdout
    answers = ran(BPF, 'run-checked', new, certificate, '--contexts', folder / 'contexts').stdout
    runs = ran(BPF, 'run', new, '--contexts', folder / 'contexts', '--steps', min(bound, 2 ** 32 - 1)).stdout
    if answers != wanted or re.sub(r' steps \d+', '', runs) != wanted:
        sys.exit(f'natural: {source.name} by {CC} answers otherwise than native C')
    if must_show and ran(BPF, 'certify', image, size, folder / 'o', folder / 'o.cert').returncode != 0:
        sys.exit(f'natural: {source.name} by {CC} isn\'t certified')
    return 'shown' if is_shown else 'unproved', wanted.count('\n'), altered(image, new, certificate, folder, wanted) if is_shown else 0


def main():
    with tempfile.TemporaryDirectory(prefix='bpf-natural-') as name:
        folder = pathlib.Path(name)
        (folder / 'native.c').write_text(NATIVE)
        found = []
        for source in sorted(SOURCES.glob('*.c')):
            subprocess.run([os.environ.get('CC', 'cc'), '-O1', '-fwrapv', '-fno-strict-aliasing', '-w', folder / 'native.c', source,
                            '-o', folder / f'{source.stem}.native'], check=True)
            found.append(compared(source, folder))
    kinds = {kind: sum(1 for other, _, _ in found if other == kind) for kind, _, _ in found}
    refused = sum(count for _, _, count in found)
    if refused < len(SHOWN):
        sys.exit(f'natural: by {CC} {refused} altered images alone answered otherwise')
    print(f'natural: of {len(found)} programs by {CC} {", ".join(f"{count} {kind}" for kind, count in sorted(kinds.items()))}; '
          f'{sum(count for _, count, _ in found)} answers are native C\'s; {refused} altered images with other answers are refused')


if __name__ == '__main__':
    main()

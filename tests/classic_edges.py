#!/usr/bin/env python3
"""The edges of classic BPF, converted: classic_edges.py BPF

- loads at the last byte of a packet and behind it, at and about 2^15, 2^31 and 2^32, by a constant and by X;
- lengths of a packet beyond its block, and beyond 32 bits;
- each word of Linux's auxiliary data, and offsets that have none;
- jumps over the whole of 4,096 instructions, each of the longest template; one instruction more;
- loops that end just before their turns are spent, with the last and just behind it; a jump back over 4,096 instructions;
- a filter on a packet that is cut at every length, and on contexts of every length;
- each spelling of a filter, cut at every length.

In turn in both orders of bytes. Answers are those of the definition, as classic.py has it; spellings are read once more below.
"""
import os
import pathlib
import re
import subprocess
import sys
import tempfile
from concurrent.futures import ThreadPoolExecutor

from classic import DATA, OFFSETS, WORD, converted, fault, rows_of, structs_of, text_of, wanted_of

RET_A, TXA, TAX = (0x16, 0, 0, 0), (0x87, 0, 0, 0), (0x07, 0, 0, 0)
SIZES = 0x00, 0x08, 0x10
PACKET = bytes(range(1, 201))
# `tcp port 80` on Ethernet, as tcpdump 4.99 compiles it.
PORT = [tuple(map(int, it.split())) for it in """
40 0 0 12
21 0 6 34525
48 0 0 20
21 0 15 6
40 0 0 54
21 12 0 80
40 0 0 56
21 10 11 80
21 0 10 2048
48 0 0 23
21 0 8 6
40 0 0 20
69 6 0 8191
177 0 0 14
72 0 0 14
21 2 0 80
72 0 0 16
21 0 1 80
6 0 0 262144
6 0 0 0
""".strip().splitlines()]
IP4 = bytes.fromhex('020000000001020000000002' '0800' '4500002800070000400600000a010203c0000201' '9c400050' '00000001000000005002ffff00000000')
IP6 = bytes.fromhex('020000000001020000000002' '86dd' '6000000000140640' '20010db8' + '00' * 11 + '01' '20010db8' + '00' * 11 + '02' '00509c40' + '00' * 16)


def about(place, far=1):
    return [it for it in range(place - far, place + far + 1) if it >= 0]


def offsets(room):
    return sorted({0, *about(room - 4), *about(room), *about((1 << 15) - 8), *about(1 << 16), *about(1 << 31), *range(WORD - 5, WORD + 1, 2), WORD, 4096})


def of_offsets():
    """Filters that load at each offset, or by X and an offset, with packets of every use."""
    packets = [PACKET[:size] for size in (0, 1, 3, 60, 63, 64, 65, 200)]
    for form, length, room in (('blocks', 72, 64), ('plain', 64, 64)):
        given = packets if form == 'blocks' else [PACKET[:64]]
        for at in offsets(room):
            for size in SIZES:
                yield form, length, [(0x20 | size, 0, 0, at), RET_A], given
            yield form, length, [(0x01, 0, 0, at), (0x40, 0, 0, 3), RET_A], given
            yield form, length, [(0x01, 0, 0, 3), (0x50, 0, 0, at), RET_A], given
            yield form, length, [(0xb1, 0, 0, at), TXA, RET_A], given
            yield form, length, [(0x01, 0, 0, at), (0x48, 0, 0, (1 << 32) - at & WORD), RET_A], given
    for at in (*range(0, 64, 12), 1, 2, 58, 59, 61, 64, 1 << 31, WORD):
        yield 'seccomp', 64, [(0x20, 0, 0, at), RET_A], [PACKET[:64]]


def of_lengths():
    """What a block says of its packet's length."""
    said = [*range(5), 63, 64, 65, *about(1 << 16), *about(1 << 31), *about(1 << 32), (1 << 32) + 5, (1 << 63) + 7, (1 << 64) - 1]
    packets = [(it, PACKET[:64]) for it in said]
    for filter in ([(0x80, 0, 0, 0), RET_A], [(0x81, 0, 0, 0), TXA, RET_A], [(0x20, 0, 0, 60), RET_A], [(0x30, 0, 0, 63), RET_A], [(0x81, 0, 0, 0), (0x50, 0, 0, 0), RET_A]):
        yield 'blocks', 72, filter, packets


def of_words():
    """Each word of Linux's auxiliary data by a load of each size, and what has none, in blocks with and without room for a packet."""
    packets = [bytes(range(101, 165)) + PACKET[:size] for size in (0, 1, 60, 64, 200)]
    for at in range(68):
        for size in SIZES:
            yield 'extended', 136, [(0x20 | size, 0, 0, DATA + at), RET_A], packets
    for at in (0, 60, 63, 64, *about(OFFSETS), OFFSETS + 12, 0xfff00000, DATA - 1, WORD):
        for code in (0x20, 0x28, 0x30, 0x40, 0x48, 0x50, 0xb1):
            yield 'extended', 136, [(code, 0, 0, at), TXA if code == 0xb1 else (0x04, 0, 0, 1), RET_A], packets
    for length in range(72, 140, 3):
        yield 'extended', length, [(0x30, 0, 0, DATA + 48), (0x15, 1, 0, 149), (0x06, 0, 0, 0), (0x80, 0, 0, 0), TAX, (0x50, 0, 0, WORD & 0), RET_A], packets
        yield 'extended', length, [(0x28, 0, 0, 58), TAX, (0x20, 0, 0, DATA + 20), (0x0c, 0, 0, 0), RET_A], packets


def of_jumps():
    """4,096 instructions, over which jumps lead from the first to the last."""
    packets = [bytes([it]) + PACKET for it in (0, 7, 8)]
    load = (0x48, 0, 0, 2)
    start = [(0x30, 0, 0, 0), (0x15, 0, 1, 7)]
    for size in (4096, 4097):
        fill = [load] * (size - 5)
        yield 'blocks', 72, [*start, (0x05, 0, 0, size - 5), *fill, (0x04, 0, 0, 1), RET_A], packets
    # A chain of tests, each of which leads as far as a test can; a jump that leads one too far.
    chain = [(0x30, 0, 0, 0), *[(0x15, 255, 0, 7) if at % 256 == 0 else load for at in range(4093)], (0x04, 0, 0, 1), RET_A]
    yield 'blocks', 72, chain, packets
    yield 'blocks', 72, [(0x05, 0, 0, 4095), *[load] * 4094, RET_A], packets
    yield 'plain', 0, [(0x05, 0, 0, 4094), *[load] * 4094, (0x06, 0, 0, 5)], [b'']


def of_loops():
    """Loops whose runs jump back once less than they may, as often, and once more; a jump back over the whole of 4,096 instructions."""
    for form, length, head in (('blocks', 72, 8), ('plain', 64, 0), ('extended', 136, 72)):
        packets = [bytes(64) * (form == 'extended') + PACKET[:64]]
        for times in about((length - head) // 8 + 1):
            yield form, length, [(0x04, 0, 0, 1), (0x35, 1, 0, times + 1), (0x05, 0, 0, (1 << 32) - 3), RET_A], packets
            yield form, length, [(0x05, 0, 0, 0), (0x04, 0, 0, 1), (0x15, 0, 1, times + 1), RET_A, (0x05, 0, 0, (1 << 32) - 5)], packets
        yield form, length, [(0x05, 0, 0, WORD)], packets
    yield 'blocks', 72, [(0x05, 0, 0, (1 << 32) - 2), RET_A], [PACKET]
    yield 'blocks', 72, [(0x04, 0, 0, 1), (0x35, 0, 1, 3), RET_A, *[(0x48, 0, 0, 2)] * 4092, (0x05, 0, 0, (1 << 32) - 4096)], [PACKET, PACKET[:3], b'']


def of_cuts():
    """A filter on packets that are cut at every length, in blocks that hold them or not, and on contexts of every length."""
    for frame in (IP4, IP6):
        cut = [frame[:it] for it in range(len(frame) + 1)]
        for length in (8, 24, 45, 46, 62, 72, 200):
            yield 'blocks', length, PORT, cut
        for length in range(len(frame) + 1):
            yield 'plain', length, PORT, [frame[:length]]
    for length in range(8, 80):
        yield 'blocks', length, PORT, [IP4, IP6, IP4[:-20]]


def differs(bpf, case, big):
    form, length, filter, packets = case
    wanted = wanted_of(form, filter, length, packets, big) if len(filter) <= 4096 else 'no B1 at instruction 0'
    said = converted(bpf, form, filter, length, packets, big)
    if said == wanted:
        return None
    return f'{form}, {length}{", big" * big}: {text_of(filter)[:200]!r}: want {str(wanted)[:200]}, got {str(said)[:200]}'


# ---- spellings, cut

def read(text):
    """The instructions of a text, or the line at which it has none."""
    found, said = [], None
    for number, line in enumerate(text.split('\n'), 1):
        words = [it for it in re.split(r'[ \t\r,{}]', line) if it]
        if any(not re.fullmatch(r'[0-9]+|0[xX][0-9a-fA-F]+', it) for it in words):
            return number
        numbers = [int(it, 16 if it[:2] in ('0x', '0X') else 10) for it in words]
        if len(numbers) == 1 and not found and said is None:
            said = number, numbers[0]
        elif len(numbers) == 4 and numbers[0] < 1 << 16 and max(numbers[1:3]) < 256:
            found.append(tuple(numbers))
        elif numbers:
            return number
    return said[0] if said is not None and said[1] != len(found) else found


def judged(found, place):
    """The line of a refusal; what stands in front of the bound where there is none."""
    if isinstance(found, int):
        return f'no B8 at {place} {found}'
    wrong = fault(found, 'blocks')
    return 'no B1 at instruction 0' if not found else 'no B%d at instruction %d' % wrong if wrong else 'yes length 72 bound'


def of_spellings():
    """Beginnings of each spelling, with the options and what is to be said."""
    filter = [(0x28, 0, 0, 12), (0x15, 0, 1, 2048), (0x06, 0, 0, 262144), (0x06, 0, 0, 0)]
    for text in (text_of(filter + [(0x06, 0, 0, 0)] * 8), rows_of(filter)):
        for at in range(len(text) + 1):
            yield text[:at].encode(), [], judged(read(text[:at]), 'line')
    for big in (False, True):
        data = structs_of(filter, big)
        for at in range(len(data) + 1):
            yield data[:at], ['--raw', *['--big'] * big], judged(at // 8 if at % 8 else filter[:at // 8], 'instruction')


def misread(bpf, case):
    data, options, wanted = case
    with tempfile.TemporaryDirectory(prefix='bpf-classic-') as room:
        pathlib.Path(f'{room}/f').write_bytes(data)
        made = subprocess.run([bpf, 'convert', f'{room}/f', '72', f'{room}/i', f'{room}/c', *options], capture_output=True, text=True, timeout=300)
        stands = [os.path.exists(f'{room}/{it}') for it in 'ic']
    said = made.stdout.strip()
    good = said.startswith(wanted) if wanted.startswith('yes') else said == wanted
    return None if good and stands == [wanted.startswith('yes')] * 2 else f'{data[-40:]!r} {options}: want {wanted}, got {said}'


def main():
    bpf = os.path.abspath(sys.argv[1])
    parts = {'offsets': of_offsets(), 'lengths': of_lengths(), 'words': of_words(), 'jumps': of_jumps(), 'loops': of_loops(), 'cuts': of_cuts()}
    bad = False
    with ThreadPoolExecutor(os.cpu_count()) as pool:
        for name, cases in parts.items():
            tries = [(it, number % 2 == 1) for number, it in enumerate(cases)]
            failed = [it for it in pool.map(lambda it: differs(bpf, *it), tries) if it]
            print(*failed[:3], f'classic: {name}: {len(tries) - len(failed)} of {len(tries)} filters answer as they are defined', sep='\n')
            bad |= bool(failed)
        tries = list(of_spellings())
        failed = [it for it in pool.map(lambda it: misread(bpf, it), tries) if it]
        print(*failed[:3], f'classic: spellings: {len(tries) - len(failed)} of {len(tries)} beginnings are read as they are defined', sep='\n')
    return 1 if bad or failed else 0


if __name__ == '__main__':
    sys.exit(main())

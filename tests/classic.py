#!/usr/bin/env python3
"""Random filters of classic BPF, converted: classic.py BPF [COUNT [SEED]], classic.py --program PROGRAM [COUNT [SEED]]

COUNT random filters (1,000 if not said) of every instruction, some of them faulty: what `bpf convert` makes of each answers what the
definition says, which is written once more below, and a faulty one is refused at its lowest instruction with a fault. They are of each form
of contexts, in both orders of bytes, and spelled in each way. Listings of every fourth one show its instructions as `tcpdump -d` does, and assemble to the image. With --program they go through the built program of
crates/bpf_tests, BATCH in each process.
"""
import os
import pathlib
import random
import struct
import subprocess
import sys
import tempfile
from concurrent.futures import ProcessPoolExecutor, ThreadPoolExecutor

BATCH = 500
WORD = 0xffffffff
HEADS = {'blocks': 8, 'extended': 72}
FORMS = {'blocks': [], 'plain': ['--plain'], 'seccomp': ['--seccomp'], 'extended': ['--extensions']}
# Linux's auxiliary data (<linux/filter.h>, SKF_AD_OFF and SKF_LL_OFF): the offsets of the words that blocks with extensions have, and
# from where on no offset is of the packet's first byte.
DATA, WORDS, OFFSETS = 0xfffff000, (0, 4, 8, 20, 24, 28, 32, 36, 44, 48, 56, 60), 0xffe00000
ADD, SUB, MUL, DIV, OR, AND, LSH, RSH, NEG, MOD, XOR = range(11)
SIZES = {0: 4, 1: 2, 2: 1}
# The codes of instructions, but for those of arithmetic and of tests, which are computed.
LOADS = [0x00, 0x20, 0x28, 0x30, 0x40, 0x48, 0x50, 0x60, 0x80, 0x01, 0x61, 0x81, 0xb1]
OTHERS = [0x02, 0x03, 0x07, 0x87, 0x84]


# ---- the definition

def answer(filter, packet, wire, order='big', masks=False, words=None, own='little', turns=0):
    """What a filter answers of a packet, of which `wire` bytes were sent; with extensions also of the 64 bytes of Linux's words. 0 where it jumps back more often
    than `turns`."""
    a = x = at = 0
    cells = [0] * 16
    while True:
        code, jt, jf, k = filter[at]
        at += 1
        kind, second = code & 7, x if code & 8 else k
        if kind == 6:
            return a if code == 0x16 else k
        if words is not None and is_word(code, k):
            a = int.from_bytes(words[k - DATA:k - DATA + 4], own)
        elif code in (0x20, 0x28, 0x30, 0x40, 0x48, 0x50, 0xb1):
            size = 1 if code == 0xb1 else SIZES[code >> 3 & 3]
            place = k + (x if code >> 5 == 2 else 0)
            if place + size > len(packet):
                return 0
            number = int.from_bytes(packet[place:place + size], order)
            if code == 0xb1:
                x = 4 * (number & 15)
            else:
                a = number
        elif kind in (0, 1):
            number = {0: k, 3: cells[k & 15], 4: wire & WORD}[code >> 5]
            a, x = (number, x) if kind == 0 else (a, number)
        elif kind in (2, 3):
            cells[k] = a if kind == 2 else x
        elif kind == 4:
            op = code >> 4
            if op in (DIV, MOD) and second == 0:
                return 0
            a = computed(op, a, second, masks)
        elif code == 0x05:
            back = k >> 31
            if back and turns == 0:
                return 0
            turns -= back
            at += k - (back << 32)
        elif kind == 5:
            at += jt if (a == second, a > second, a >= second, a & second != 0)[(code >> 4) - 1] else jf
        elif code == 0x07:
            x = a
        else:
            a = x


def is_word(code, k):
    return code in (0x20, 0x28, 0x30) and k - DATA in WORDS


def computed(op, a, b, masks):
    if op in (LSH, RSH):
        if masks:
            b &= 31
        if b >= 32:
            return 0
        return a << b & WORD if op == LSH else a >> b
    return {ADD: lambda: a + b, SUB: lambda: a - b, MUL: lambda: a * b, DIV: lambda: a // b, OR: lambda: a | b, AND: lambda: a & b, NEG: lambda: -a,
            MOD: lambda: a % b, XOR: lambda: a ^ b}[op]() & WORD


def is_instruction(code):
    if code in LOADS or code in OTHERS or code in (0x05, 0x06, 0x16):
        return True
    op = code >> 4
    return code < 0x100 and (code & 7 == 4 and op <= XOR and op != NEG or code & 7 == 5 and 1 <= op <= 4)


def fault(filter, form):
    """The number of the lowest fault and its instruction, or None."""
    for at, (code, jt, jf, k) in enumerate(filter):
        left, op, by_k = len(filter) - at - 1, code >> 4, not code & 8
        if not is_instruction(code):
            return 2, at
        if code in (0x60, 0x61, 0x02, 0x03) and k > 15:
            return 3, at
        if code & 7 == 4 and by_k and (op in (DIV, MOD) and k == 0 or op in (LSH, RSH) and k > 31):
            return 4, at
        back = (1 << 32) - k if code == 0x05 and k >> 31 else 0
        if back > at + 1 or not back and left <= (k if code == 0x05 else max(jt, jf) if code & 7 == 5 else -1 if code & 7 == 6 else 0):
            return 5, at
        if form == 'seccomp' and (back or code in (0x28, 0x30, 0x40, 0x48, 0x50, 0xb1) or code == 0x20 and (k % 4 or k > 60) or code & 7 == 4 and op == MOD):
            return 6, at
        if form in ('blocks', 'plain') and code in (0x20, 0x28, 0x30) and DATA <= k <= DATA + 60:
            return 7, at
        if form == 'extended' and code in (0x20, 0x28, 0x30, 0x40, 0x48, 0x50, 0xb1) and k >= OFFSETS and not is_word(code, k):
            return 7, at
    return None


# ---- random filters

def constant(rng):
    return rng.choice([0, 1, 2, 4, 8, 12, 14, 15, 20, 31, 40, 60, 64, 100, 255, 0x800, 0xffff, 0x7fffffff, 0x80000000, WORD, rng.randrange(1 << 32)])


def loaded(rng, code, form):
    if form == 'seccomp':
        return 0x20, rng.randrange(16) * 4
    if form == 'extended' and code in (0x20, 0x28, 0x30) and rng.random() < .5:
        return code, DATA + rng.choice(WORDS)
    if code in (0x60, 0x61):
        return code, rng.randrange(16)
    return code, rng.randrange(80) if code not in (0x00, 0x01) or rng.random() < .3 else constant(rng)


def computing(rng, seccomp):
    op = rng.choice([it for it in range(11) if it != NEG and not (seccomp and it == MOD)])
    by_x = rng.random() < .4
    k = constant(rng)
    if not by_x and op in (DIV, MOD):
        k = k or 1
    if not by_x and op in (LSH, RSH):
        k %= 32
    return 4 | 8 * by_x | op << 4, k


def random_filter(rng, form):
    size = rng.choice([1, 2, 3, 5, 8, 13, 21, 34])
    filter = []
    for at in range(size):
        left, jt, jf, k = size - at - 1, 0, 0, constant(rng)
        kind = rng.random()
        if left == 0 or kind < .05:
            code = rng.choice([0x06, 0x06, 0x16])
        elif kind < .45:
            code, k = loaded(rng, rng.choice(LOADS), form)
        elif kind < .65:
            code, k = computing(rng, form == 'seccomp')
        elif kind < .75:
            code, k = rng.choice(OTHERS), rng.randrange(16)
        elif kind < .8:
            code, k = 0x05, rng.randrange(left) if rng.random() < .7 else (1 << 32) - rng.randint(1, at + 1)
        else:
            code = 5 | 8 * (rng.random() < .3) | rng.randrange(1, 5) << 4
            jt, jf = rng.randrange(min(left, 256)), rng.randrange(min(left, 256))
        filter.append((code, jt, jf, k))
    if rng.random() < .1:
        at = rng.randrange(size)
        code, jt, jf, k = filter[at]
        filter[at] = rng.choice([(rng.randrange(1 << 16), jt, jf, k), (code, 255, jf, k), (code, jt, jf, WORD), (0x20, 0, 0, DATA + rng.randrange(64)),
                                 (0x34, 0, 0, 0), (0x64, 0, 0, 32 + k % 9), (0x02, 0, 0, 16), (0x94, 0, 0, 3)])
    return filter


# ---- filters, spelled

def text_of(filter):
    return f'{len(filter)}\n' + ''.join('%d %d %d %d\n' % it for it in filter)


def rows_of(filter):
    """Rows of C, as `tcpdump -dd` prints them."""
    return ''.join('{ 0x%x, %d, %d, 0x%08x },\n' % it for it in filter)


def structs_of(filter, big):
    return b''.join(struct.pack('>HBBI' if big else '<HBBI', *it) for it in filter)


def spelled(spelling, filter, big):
    """The bytes of a filter, and the options that say what they are."""
    if spelling == 'raw':
        return structs_of(filter, big), ['--raw']
    return (text_of if spelling == 'ddd' else rows_of)(filter).encode(), []


# ---- what is made of a filter

def block_of(form, packet, length, big=False):
    """The context that holds a packet, in hexadecimal; of a pair the first number is the length that a block says. With extensions the
    packet stands behind the 64 bytes of the words."""
    wire, packet = packet if isinstance(packet, tuple) else (len(packet) - 64 * (form == 'extended'), packet)
    if form in ('blocks', 'extended'):
        return (wire.to_bytes(8, 'big' if big else 'little') + packet)[:length].ljust(length, b'\xa5').hex()
    return packet.ljust(length, b'\0')[:length].hex()


def wanted_of(form, filter, length, packets, big=False):
    """What is to be said of a filter: the line of its refusal, or what it answers to the packets."""
    seccomp, own = form == 'seccomp', 'big' if big else 'little'
    wrong = fault(filter, form)
    if wrong:
        return 'no B%d at instruction %d' % wrong
    if not filter:
        return 'no B1 at instruction 0'
    found, order, words = [], own if seccomp else 'big', None
    turns = (length - HEADS.get(form, 0)) // 8 + 1
    for it in packets:
        context = bytes.fromhex(block_of(form, it, length, big))
        if form in ('blocks', 'extended'):
            wire = int.from_bytes(context[:8], own)
            words, context = (context[8:72], context[72:][:wire]) if form == 'extended' else (None, context[8:][:wire])
        else:
            wire = length
        found.append(answer(filter, context, wire, order, seccomp, words, own, turns))
    return found


def converted(bpf, form, filter, length, packets, big=False, spelling='ddd'):
    """What `bpf` says of a filter: the line of its refusal, or what its program answers to the packets."""
    order = ['--big'] if big else []
    with tempfile.TemporaryDirectory(prefix='bpf-classic-') as room:
        given, lines = f'{room}/f', f'{room}/lines'
        data, options = spelled(spelling, filter, big)
        pathlib.Path(given).write_bytes(data)
        pathlib.Path(lines).write_text(''.join((block_of(form, it, length, big) or 'none') + '\n' for it in packets))
        made = subprocess.run([bpf, 'convert', *order, given, str(length), f'{room}/i', f'{room}/c', *FORMS[form], *options], capture_output=True, text=True, timeout=300)
        if made.returncode:
            return made.stdout.strip() or made.stderr.strip()
        ran = subprocess.run([bpf, 'run-checked', *order, f'{room}/i', f'{room}/c', '--contexts', lines], capture_output=True, text=True, timeout=300)
        return [int(it.split()[1]) if it.startswith('done ') else it for it in ran.stdout.splitlines()] or ran.stderr


# ---- listings

WORDS_OF_OPS = 'add sub mul div or and lsh rsh neg mod xor'.split()
NAMES = {0: 'proto', 4: 'type', 8: 'ifidx', 20: 'mark', 24: 'queue', 28: 'hatype', 32: 'rxhash', 36: 'cpu', 44: 'vlan_tci', 48: 'vlanp', 56: 'random', 60: 'vlan_tpid'}


def shown(at, insn):
    """An instruction as `tcpdump -d` shows it."""
    code, jt, jf, k = insn
    kind, signed = code & 7, k - (k >> 31 << 32)
    word = ['ld', 'ldx', 'st', 'stx', '', '', 'ret', ('tax', 'txa')[code >> 7]][kind]
    if kind == 4:
        word = WORDS_OF_OPS[code >> 4]
        operand = '' if word == 'neg' else 'x' if code & 8 else f'#{k:#x}' if word in ('or', 'and', 'xor') else f'#{signed}'
    elif code == 0x05:
        word, operand = 'ja', str((at + 1 + k & WORD) - ((at + 1 + k & WORD) >> 31 << 32))
    elif kind == 5:
        word = 'ja jeq jgt jge jset'.split()[code >> 4]
        operand = f'{"x" if code & 8 else f"#{k:#x}":<16} jt {at + 1 + jt}\tjf {at + 1 + jf}'
    elif kind in (2, 3):
        operand = f'M[{signed}]'
    elif kind in (6, 7):
        operand = f'#{signed}' if code == 0x06 else ''
    elif code == 0xb1:
        word, operand = 'ldxb', f'4*([{signed}]&0xf)'
    else:
        word += {1: 'h', 2: 'b'}.get(code >> 3 & 3, '')
        name = NAMES.get(k - DATA, signed)
        operand = {0: f'#{k:#x}', 1: f'[{name}]', 2: f'[x + {signed}]', 3: f'M[{signed}]', 4: '#pktlen'}[code >> 5]
    return f'({at:03d}) {word:<8} {operand}'


def listed(bpf, form, filter, length, big=False):
    """The instructions of a filter in its program's listing, and whether that assembles to the image."""
    order = ['--big'] if big else []
    with tempfile.TemporaryDirectory(prefix='bpf-classic-') as room:
        given, image, listing = (pathlib.Path(room, it) for it in ('f', 'i', 'l'))
        given.write_text(text_of(filter))
        subprocess.run([bpf, 'convert', *order, str(given), str(length), str(image), f'{room}/c', *FORMS[form], '--listing', str(listing)], stdout=subprocess.DEVNULL, timeout=300)
        subprocess.run([bpf, 'asm', *order, str(listing), f'{room}/again'], timeout=300)
        found = [it[2:] for it in listing.read_text().splitlines() if it.startswith('; (')]
        return found, pathlib.Path(f'{room}/again').read_bytes() == image.read_bytes()


# ---- random filters on random packets

def random_case(seed):
    """A form of contexts, their length, a filter, and packets."""
    rng = random.Random(seed)
    form = rng.choice(list(FORMS))
    length = rng.choice({'blocks': [8, 9, 40, 72, 200], 'plain': [0, 1, 34, 64, 100], 'seccomp': [64], 'extended': [72, 73, 104, 136, 264]}[form])
    filter = random_filter(rng, form)
    least, most = {'blocks': (0, 120), 'extended': (64, 184)}.get(form, (length, length))
    packets = [bytes(rng.choice([0, 1, 6, 8, 64, 69, 255, rng.randrange(256)]) for _ in range(rng.randint(least, most))) for _ in range(12)]
    return form, length, filter, packets


def differs(bpf, seed):
    """How a random filter is answered otherwise than by the definition, if it is."""
    form, length, filter, packets = random_case(seed)
    big, spelling = seed % 3 == 1, ('ddd', 'dd', 'raw')[seed // 3 % 3]
    wanted = wanted_of(form, filter, length, packets, big)
    said = converted(bpf, form, filter, length, packets, big, spelling)
    if said == wanted and isinstance(said, list) and seed % 4 == 0:
        wanted, said = ([shown(at, it) for at, it in enumerate(filter)], True), listed(bpf, form, filter, length, big)
    return None if said == wanted else f'seed {seed} ({form}, {length}{", big" * big}, {spelling}):\n{text_of(filter)}want {wanted}\ngot  {said}'


def by_command(bpf, seeds):
    with ThreadPoolExecutor(os.cpu_count()) as pool:
        return [it for it in pool.map(lambda seed: differs(bpf, seed), seeds) if it]


def batch(program, seeds):
    """The same by one process, which takes texts alone and makes little-endian images."""
    cases = [random_case(seed) for seed in seeds]
    given = ''
    for form, length, filter, packets in cases:
        words = ' '.join(it.hex() or 'none' for it in packets)
        given += f'{form} {length} {text_of(filter).strip().replace(chr(10), "/").replace(" ", ",")} {words}\n'
    said = subprocess.run([program], input=given, capture_output=True, text=True, timeout=600).stdout.splitlines()
    failed = [f'{len(said)} answers to {len(cases)} filters'] if len(said) != len(cases) else []
    for seed, (form, length, filter, packets), line in zip(seeds, cases, said):
        wanted = wanted_of(form, filter, length, packets)
        wanted = wanted.replace('no ', '').replace('instruction ', '') if isinstance(wanted, str) else ' '.join(map(str, ['yes', *wanted]))
        if line != wanted:
            failed.append(f'seed {seed} ({form}, {length}):\n{text_of(filter)}want {wanted}\ngot  {line}')
    return failed


def by_program(program, seeds):
    batches = [seeds[at:at + BATCH] for at in range(0, len(seeds), BATCH)]
    with ProcessPoolExecutor(os.cpu_count()) as pool:
        return [it for failed in pool.map(batch, [program] * len(batches), batches) for it in failed]


def main():
    words = sys.argv[1:]
    way = by_program if words[0] == '--program' else by_command
    tool, *rest = words[1:] if way is by_program else words
    count, first = [int(it) for it in rest] + [1_000, 0][len(rest):]
    failed = way(os.path.abspath(tool), range(first * count, (first + 1) * count))
    for it in failed[:3]:
        print(it)
    print(f'classic: {count - len(failed)} of {count} random filters answer as they are defined')
    return 1 if failed else 0


if __name__ == '__main__':
    sys.exit(main())

#!/usr/bin/env python3
"""Hardens programs and compares what the new ones answer with the old ones: harden.py BPF [COUNT [SEED]]

- COUNT random programs (600 if not said) with walking pointers, indexes that nothing tests, loops that nothing counts, arrays in the
  frame and local functions, in both orders, and their packets in blocks;
- the images of examples/c, and random programs, with one byte changed;
- programs of many loops and accesses, each of which has to be shown to keep the meaning;
- the longest programs, whose notes have to be read;
- the images of tests/plain, which compute with pointers as native code does: by bpf-gcc -O1 a hash and a parser whose loops end at `~p + end`, by clang
  14 programs of tests/natural, and one that copies padding. Each is shown to keep the meaning, and answers what the old one does on plain addresses.
  New images that are altered, and answer otherwise, are refused by `follows`.

Each that is hardened gets a certificate by `infer --deep`. On random contexts it ends with the number that the old program ends with;
where the old one leaves the context or its frame (F3) it goes to the trap. Where the old one puts pointers in order (F6), it is run on plain
addresses, too: where it ends with one number wherever memory lies far, and the new one is shown to keep the meaning, that ends with it. Refusals are
counted, and have a number. What `follows` says of each with its notes and its certificate is counted, too, and without `--unproved` `harden` writes
the same exactly where that is yes.
"""
import collections
import os
import pathlib
import random
import re
import subprocess
import sys
import tempfile
from concurrent.futures import ThreadPoolExecutor

import flat
import natural

PLAIN = pathlib.Path(__file__).resolve().parent / 'plain'
# How long the contexts of their programs are.
LENGTHS = {'aligned': 64, 'backwards': 96, 'cursor': 128, 'fnv-gcc': 64, 'json-gcc': 64, 'padding': 16, 'quic': 64, 'walkptr': 100}
EXAMPLES = pathlib.Path(__file__).resolve().parent.parent / 'examples' / 'c'
TRAP = 0x7261707472617074
STEPS = 60_000
SIZES = {'u8': 1, 'u16': 2, 'u32': 4, 'u64': 8}


class Wrong(Exception):
    pass


# ---- random programs

class Program:
    """Lines of a random program for contexts of a length, as people and compilers write them: nothing keeps its accesses inside."""

    def __init__(self, rng):
        self.rng, self.lines, self.labels = rng, [], 0
        self.length = rng.randrange(8, 65)
        self.has_call = rng.random() < 0.3
        self.body('r6', ['r6 = r1', 'r0 = 7'])
        if self.has_call:
            self.lines.append('helper:')
            self.body('r1', ['r0 = 1'] if rng.random() < 0.7 else ['r0 = 0xffffffffffff ll'])

    def body(self, base, first):
        self.lines += first
        if base == 'r6' and self.rng.random() < 0.3:
            self.lines += ['*(u64 *)(r10 - 48) = r6', 'r9 = *(u64 *)(r10 - 48)']
        for _ in range(self.rng.randrange(1, 5)):
            self.statement(base, 2)
        if self.rng.random() < 0.5 or base == 'r1':
            self.lines.append('r0 &= 1023')
        self.lines.append('exit')

    def label(self):
        self.labels += 1
        return f'l{self.labels}'

    def byte(self, register, base):
        """A number that comes from the context."""
        self.lines.append(f'{register} = *(u8 *)({base} + {self.rng.randrange(self.length)})')
        if self.rng.random() < 0.5:
            self.lines.append(f'{register} {self.rng.choice(["&= 15", ">>= 3", "&= 63", "<<= 1", "+= -3"])}')

    def statement(self, base, depth):
        kinds = ['index', 'pair', 'walk', 'count', 'halve', 'array', 'order'] + ['branch', 'nest'] * (depth > 0) + ['call'] * (self.has_call and base == 'r6')
        getattr(self, self.rng.choice(kinds))(base, depth)

    def index(self, base, _):
        size = self.rng.choice(list(SIZES))
        self.byte('r2', base)
        self.lines += [f'r3 = {base}', 'r3 += r2', f'r4 = *({size} *)(r3 {self.rng.choice(["+ 0", "+ 0", "+ 3", "- 2", "+ 9"])})', 'r0 ^= r4']

    def pair(self, base, _):
        self.byte('r2', base)
        self.lines += [f'r2 += {base}', f'r3 = *(u8 *)(r2 + {self.rng.randrange(8)})', 'r3 <<= 8', 'r4 = *(u8 *)(r2 + 0)', 'r4 |= r3', 'r0 += r4']

    def walk(self, base, _):
        step, turns = self.rng.choice([1, 1, 2, 3]), self.rng.randrange(1, 9)
        first, again = self.rng.randrange(self.length), self.label()
        self.lines += [f'r3 = {base}', f'r3 += {first}', f'r4 = {base}', f'r4 += {first + step * turns}', f'{again}:',
                       'r5 = *(u8 *)(r3 + 0)', 'r0 += r5', f'r3 += {step}', f'if r3 != r4 goto {again}']

    def count(self, base, _):
        again = self.label()
        self.lines += ['w5 = 0', f'{again}:', f'r2 = {base}', 'r2 += r5', 'r3 = *(u8 *)(r2 + 0)', 'w0 ^= w3', 'w5 += 1',
                       f'if w5 < {self.rng.randrange(1, self.length + 3)} goto {again}']

    def halve(self, base, _):
        again = self.label()
        self.byte('r2', base)
        self.lines += ['r2 &= 255', f'{again}:', 'r0 += r2', 'r2 >>= 1', f'if r2 != 0 goto {again}']

    def array(self, base, _):
        bytes_ = self.rng.choice([8, 16, 32])
        self.byte('r2', base)
        self.lines += ['r3 = r10', f'r3 += -{bytes_}', 'r3 += r2', self.rng.choice(['*(u8 *)(r3 + 0) = 5', '*(u8 *)(r3 + 0) = r2']),
                       f'r4 = *(u8 *)(r10 - {self.rng.randrange(1, bytes_ + 1)})', 'r0 += r4']

    def order(self, base, _):
        over = self.label()
        self.byte('r2', base)
        self.lines += [f'r3 = {base}', f'r3 += {self.rng.randrange(self.length)}', f'r4 = {base}', 'r4 += r2',
                       f'if r4 {self.rng.choice([">", ">=", "<", "<="])} r3 goto {over}', f'r5 = *(u8 *)({self.rng.choice(["r3", "r4"])} + 0)', 'r0 ^= r5', f'{over}:']

    def branch(self, base, depth):
        over = self.label()
        self.byte('r2', base)
        self.lines.append(f'if r2 {self.rng.choice(["==", "!=", ">", "<=", "s<"])} {self.rng.randrange(self.length)} goto {over}')
        self.statement(base, depth - 1)
        self.lines.append(f'{over}:')

    def nest(self, base, depth):
        counter, again = f'r{6 + depth}', self.label()
        self.lines += [f'{counter} = {self.rng.randrange(1, 6)}', f'{again}:']
        self.statement(base, depth - 1)
        self.lines += [self.rng.choice([f'{counter} += -1', f'w{counter[1:]} += -1']), f'if {counter} != 0 goto {again}']

    def call(self, base, _):
        self.byte('r2', base)
        self.lines += ['r7 = r0', f'r1 = {base}', 'call helper', 'r0 += r7']


def contexts_of(rng, length):
    """Contexts whose bytes are often small, so that indexes often lie inside."""
    def byte():
        return rng.randrange(min(max(length, 1), 256)) if rng.random() < 0.6 else rng.choice([0, 1, 127, 128, 255, rng.randrange(256)])
    return [bytes(byte() for _ in range(length)) for _ in range(12)]


# ---- the command

class Runner:
    def __init__(self, bpf, folder):
        self.bpf, self.folder, self.verdicts, self.is_shown = bpf, folder, collections.Counter(), False

    def call(self, *words):
        done = subprocess.run([self.bpf, *words], cwd=self.folder, capture_output=True, text=True, timeout=60)
        if done.returncode not in (0, 1):
            raise Wrong(f'{" ".join(words)}: status {done.returncode} {done.stderr.strip()}')
        return done.returncode, done.stdout

    def put(self, name, data):
        with open(os.path.join(self.folder, name), 'wb') as it:
            it.write(data)

    def get(self, name):
        with open(os.path.join(self.folder, name), 'rb') as it:
            return it.read()

    def on(self, words, contexts):
        """What a run of each context ends with: a number, the letter and number of a fault, or nothing where it has no end."""
        self.put('contexts', ''.join((c.hex() or 'none') + '\n' for c in contexts).encode())
        said = self.call(*words, '--contexts', 'contexts')[1].splitlines()
        if len(said) != len(contexts):
            raise Wrong(f'{" ".join(words)}: {len(said)} answers for {len(contexts)} contexts')
        return [int(m[1]) if (m := re.match(r'done (\d+)', line)) else m[1] if (m := re.match(r'fault (F\d)', line)) else None for line in said]

    def hardened(self, length, *flags):
        """Whether old.img is hardened to new.img, with a certificate new.cert."""
        order = [flag for flag in flags if flag == '--big']
        for name in ('new.img', 'new.cert'):
            if os.path.exists(os.path.join(self.folder, name)):
                os.remove(os.path.join(self.folder, name))
        words = ['harden', 'old.img', str(length), 'new.img', '--otherwise', str(TRAP), *flags]
        status, out = self.call(*words, '--unproved', '--notes', 'notes', '--certificate', 'new.cert')
        if status:
            if not re.fullmatch(r'no H\d+ at slot \d+\n', out):
                raise Wrong(f'harden says {out!r}')
            return out.split()[1]
        for after in (('infer', '--deep', *order, 'new.img', str(length), 'again.cert'), ('check', *order, 'new.img', 'new.cert')):
            status, out = self.call(*after)
            if status:
                raise Wrong(f'{after[0]} of the hardened image says {out!r}')
        self.follow(length, order, words)
        return None

    def taken(self, harden):
        """How many of the lowest bytes of each frame hardening keeps accesses from."""
        self.call(*harden, '--unproved', '--changes', 'changes')
        return 512 - max(map(int, re.findall(r'^fn .* depth (\d+)', self.get('changes').decode(), re.M)), default=0)

    def follow(self, length, order, harden):
        """What `follows` says of new.img with its notes and its certificate, for each run or for those that leave the bytes alone that hardening
        takes, and that `harden` goes by it without `--unproved`: what is shown for fewer runs than all it says, and `--untouched 0` refuses it."""
        blocks = ' padded' if '--padded' in harden else ''
        status, out = self.call('follows', *order, 'old.img', 'new.img', 'notes', 'new.cert')
        said = re.fullmatch(rf'yes length {length} turns (?:65536|any) bound \d+{blocks}(?: untouched (\d+))?\n|no (M\d+) at (slot \d+)\n', out)
        if not said:
            raise Wrong(f'follows says {out!r}')
        shown, left = status == 0, int(said[1] or 0)
        self.is_shown = shown and not left
        new = self.get('new.img')
        if left and left != self.taken(harden):
            raise Wrong(f'follows says {said[0]!r}, and hardening takes {self.taken(harden)} bytes')
        self.verdicts['left' if left else said[2] or 'yes'] += 1
        os.remove(os.path.join(self.folder, 'new.img'))
        status, out = self.call(*harden)
        if (status, out) != ((0, f'untouched {left}\n' if left else '') if shown else (1, f'no H13 at {said[3]}\n')):
            raise Wrong(f'follows says {said[0]!r}, and harden {out!r}')
        if left and self.call(*harden, '--untouched', '0')[0] != 1:
            raise Wrong('harden --untouched 0 takes what is shown for fewer runs')
        if shown and self.get('new.img') != new or not shown and os.path.exists(os.path.join(self.folder, 'new.img')):
            raise Wrong('harden writes something else without --unproved')
        self.put('new.img', new)


def with_plain(run, order, cases, head):
    """The new program's contexts, and what the old one's run ends with, of cases that also tell what the old one is given. Where pointers in order
    are a fault (F6), and the meaning is shown to be kept, that is what it ends with on plain addresses."""
    image, big = run.get('old.img'), bool(order)
    return [(context, flat.far_answer(image, big, own, head) if was == 'F6' and run.is_shown else was) for context, own, was in cases]


def compare(run, order, cases, is_exact):
    """Raises where a new answer isn't what the old one asks for: `cases` are contexts of the new program, and what the old one's run
    ended with. A trap of a local function may answer its caller, so what comes of an F3 is told only where `is_exact`; where the frame
    is written by a register, what hardening keeps may take its lowest bytes."""
    told = [(context, was) for context, was in cases if isinstance(was, int) or was == 'F3' and is_exact]
    new = run.on(['run-checked', *order, 'new.img', 'new.cert'], [context for context, _ in told]) if told else []
    may_cut = not run.is_shown and is_written_by_register(run, order)
    for (context, was), now in zip(told, new):
        right = now == TRAP if was == 'F3' else was == now or may_cut and now == TRAP
        if not right:
            raise Wrong(f'on {context.hex()} {was} before, {now} hardened')


def has_call(run, order):
    return 'call' in run.call('list', *order, 'old.img')[1]


def is_written_by_register(run, order):
    listing = run.call('list', *order, 'old.img')[1]
    return re.search(r'^(lock )?\*\(u\d+ \*\)\(r[0-9] ', listing, re.M) is not None


def try_image(run, rng, length, order, tells):
    """Hardens old.img and compares; `tells` says that an F3 is to end in the trap."""
    why = run.hardened(length, *order)
    if why:
        return why
    contexts = contexts_of(rng, length)
    old = run.on(['run', *order, 'old.img', '--steps', str(STEPS)], contexts)
    compare(run, order, with_plain(run, order, list(zip(contexts, contexts, old)), 0), tells and not has_call(run, order))
    return 'same' if run.get('old.img') == run.get('new.img') else 'changed'


def try_blocks(run, rng, most, order):
    """Hardens old.img for blocks, and compares it on packets of many lengths, of which a block has what it has room for."""
    why = run.hardened(most + 8, '--padded', *order)
    if why:
        return why
    frames = [rng.choice(contexts_of(rng, rng.randrange(most + 1))) for _ in range(9)] + [rng.choice(contexts_of(rng, most + more)) for more in (1, 7, 300)]
    way = 'big' if order else 'little'
    packets = [frame[:most] for frame in frames]
    blocks = [len(f).to_bytes(8, way) + p + bytes(rng.randrange(256) for _ in range(most - len(p))) for f, p in zip(frames, packets)]
    old = [run.on(['run', *order, 'old.img', '--steps', str(STEPS)], [packet])[0] for packet in packets]
    compare(run, order, with_plain(run, order, list(zip(blocks, packets, old)), 8), not has_call(run, order))
    return 'blocks'


def changed_byte(rng, image):
    at = rng.randrange(len(image))
    return image[:at] + bytes([rng.randrange(256)]) + image[at + 1:]


def try_seed(bpf, seed):
    """A random program, the same with a byte changed, and an example with a byte changed. What became of them."""
    rng, found = random.Random(seed), collections.Counter()
    order = ['--big'] if rng.random() < 0.2 else []
    with tempfile.TemporaryDirectory() as folder:
        run = Runner(bpf, folder)
        program = Program(rng)
        run.put('p.asm', ''.join(line + '\n' for line in program.lines).encode())
        try:
            status, out = run.call('asm', *order, 'p.asm', 'old.img')
            if status:
                raise Wrong(f'asm says {out!r}')
            image = run.get('old.img')
            found[try_image(run, rng, program.length, order, True)] += 1
            if seed % 4 == 0:
                found[try_blocks(run, rng, program.length, order)] += 1
            example = rng.choice(sorted(EXAMPLES.glob('*.img'))).read_bytes()
            for other, length, way in ((image, program.length, order), (example, 128, [])):
                run.put('old.img', changed_byte(rng, other))
                if run.call('list', *way, 'old.img')[0] == 0:
                    found[try_image(run, rng, length, way, False)] += 1
        except Wrong as wrong:
            name = f'harden-{seed}.img'
            pathlib.Path(name).write_bytes(run.get('old.img'))
            raise Wrong(f'seed {seed}, length {program.length} {order}: {wrong}; the image is {name}') from None
    return found + run.verdicts


# ---- long programs

WALK = """r2 = r6
r2 += 16
r3 = r6
r4 = *(u8 *)(r3 + 0)
r0 += r4
r3 += 1
if r3 != r2 goto -4
"""
INDEX = """r2 = *(u8 *)(r6 + 0)
r3 = r6
r3 += r2
r4 = *(u8 *)(r3 + 1)
r0 += r4
"""
HALVE = """r2 = *(u8 *)(r6 + 0)
r2 >>= 1
r0 += 1
if r2 != 0 goto -3
"""


def nest(depth, body):
    """Loops of three turns in one another, counted by r7 and the registers behind it."""
    for register in range(7, 7 + depth):
        slots = body.count('\n')
        body = f'r{register} = 3\n{body}r{register} += -1\nif r{register} != 0 goto -{slots + 2}\n'
    return body


def long_loop(count):
    """One loop around so many accesses, whose way back is a jump of 32 bits."""
    return f'r7 = 10\n{INDEX * count}r7 += -1\nif r7 == 0 goto +1\ngotol -{5 * count + 3}\n'


def functions(count):
    """So many functions, each called once."""
    calls = ''.join(f'r1 = r6\ncall f{number}\n' for number in range(count))
    bodies = 'exit\n'.join(f'f{number}:\nr0 = 0\nr6 = r1\n{WALK * 3}' for number in range(count))
    return f'{calls}exit\n{bodies}'


LONG = [WALK * 150, INDEX * 300, HALVE * 12, nest(3, WALK) * 40, long_loop(100), functions(100)]


def try_long(bpf):
    """Hardens programs of many pieces, and compares; all have to be shown to keep the meaning, for each run. What became of them."""
    found = collections.Counter()
    with tempfile.TemporaryDirectory() as folder:
        for number, pieces in enumerate(LONG):
            run = Runner(bpf, folder)
            run.put('p.asm', f'r0 = 0\nr6 = r1\n{pieces}exit\n'.encode())
            run.call('asm', 'p.asm', 'old.img')
            became = try_image(run, random.Random(number), 64, [], True)
            if became != 'changed' or run.verdicts != {'yes': 1}:
                raise Wrong(f'long program {number}: {became} {dict(run.verdicts)}')
            found[became] += 1
            found += run.verdicts
    return found


def try_longest(bpf):
    """Notes of the longest programs are read, with a line for each slot. Those that `harden` writes of such a one note nothing."""
    with tempfile.TemporaryDirectory() as folder:
        run = Runner(bpf, folder)
        run.put('p.asm', b'r0 = 0\n' * 65535 + b'exit\n')
        run.put('own-notes', b'bpfnotes 2 length 0 turns 65536 untouched 0\n' + b''.join(b'%d old %d\n' % (n, n) for n in range(65535)) + b'65535 old 65535 r0\n')
        run.call('asm', 'p.asm', 'p.img')
        run.call('harden', 'p.img', '0', 'new.img', '--unproved', '--notes', 'notes', '--certificate', 'cert')
        for notes, wanted in (('own-notes', 'yes length 0 turns any bound 65536\n'), ('notes', 'no M2 at slot 0\n')):
            said = run.call('follows', 'p.img', 'new.img', notes, 'cert')[1]
            if said != wanted:
                raise Wrong(f'of the longest program follows says {said!r} by {notes}')


def altered(run, rng, contexts, answers):
    """How many new images with one instruction altered are certified still, answer otherwise, and are refused by `follows`."""
    new, count = run.get('new.img'), 0
    slots = [at for at in range(0, len(new), 8) if new[at] not in (0x00, 0x18)]
    for at in rng.sample(slots, min(len(slots), natural.ALTERED)):
        run.put('other.img', new[:at] + natural.ANSWER + new[at + 8:])
        if run.call('check', 'other.img', 'new.cert')[0] != 0 or run.on(['run-checked', 'other.img', 'new.cert'], contexts) == answers:
            continue
        status, out = run.call('follows', 'old.img', 'other.img', 'notes', 'new.cert')
        if status != 1 or out[:4] != 'no M':
            raise Wrong(f'with another answer at slot {at // 8} of the new image follows says {out!r}')
        count += 1
    return count


def try_plain(bpf, name):
    """Hardens an image whose old program is run on plain addresses, wherever memory lies far, and alters the new one. How many altered ones were
    refused."""
    with tempfile.TemporaryDirectory() as folder:
        run, length = Runner(bpf, folder), LENGTHS[name]
        run.put('old.img', (PLAIN / f'{name}.img').read_bytes())
        contexts = [bytes.fromhex(line) for line in natural.contexts(name, length)][::2]
        wanted = [flat.far_answer(run.get('old.img'), False, context) for context in contexts]
        why = run.hardened(length)
        if why or not run.is_shown or None in wanted:
            raise Wrong(f'{name}: {why or "not shown to keep the meaning of all runs"}, or it has no answer on some context')
        answers = run.on(['run-checked', 'new.img', 'new.cert'], contexts)
        if answers != wanted:
            raise Wrong(f'{name}: the new image answers {answers}, and the old one on plain addresses {wanted}')
        return altered(run, random.Random(name), contexts, answers)


def counted(found, letter):
    """The numbers of a letter, and how many there are of each."""
    return ', '.join(f'{number} {found[number]}' for number in sorted(found, key=lambda n: (len(n), n)) if number[0] == letter) or 'none'


def main():
    bpf = os.path.abspath(sys.argv[1])
    count = int(sys.argv[2]) if len(sys.argv) > 2 else 600
    first = int(sys.argv[3]) if len(sys.argv) > 3 else 1
    try:
        try_longest(bpf)
        found = try_long(bpf)
        with ThreadPoolExecutor(os.cpu_count()) as pool:
            others = sum(pool.map(lambda name: try_plain(bpf, name), LENGTHS))
            for each in pool.map(lambda seed: try_seed(bpf, seed), range(first, first + count)):
                found += each
    except Wrong as wrong:
        sys.exit(f'harden.py: {wrong}')
    hardened = found['same'] + found['changed'] + found['blocks']
    refused = counted(found, 'H')
    if others < 4 * len(LENGTHS):
        sys.exit(f'harden.py: {others} altered images alone answered otherwise')
    if found['changed'] < count // 3:
        sys.exit(f'harden.py: of {count} programs {found["changed"]} alone were changed: {refused}')
    print(f'harden: {hardened} programs answer as before ({found["same"]} unchanged, {found["changed"]} changed, {found["blocks"]} in blocks); '
          f'refused: {refused}; shown to keep the meaning {found["yes"]}, '
          f'{found["left"]} where the lowest bytes of frames are left alone, else {counted(found, "M")}; '
          f'{others} altered images with other answers are refused')


if __name__ == '__main__':
    main()

#!/usr/bin/env python3
"""Guards and counters forced on every access and every loop: forced.py BPF FORCED [COUNT [SEED]]

FORCED is the built program of crates/bpf_tests, which hardens so, whether it is needed or not, and runs both programs. COUNT
programs (10,000 if not said) are those of harden.py's generator, and images of examples/ and examples/c as fuzz.py alters them, in both
orders and with few and many turns; and as many have one byte changed. On random contexts

- where the old program ends with a number, the new one ends with it, or in the trap where it has few turns, or where hardening may
  take the lowest bytes of a frame that is written by a register, and the new program isn't shown to keep the meaning;
- where the old one leaves the context or its frame by a register (F3), the new one goes to the trap.

At least 19 of 20 for which a certificate is found, and of which the old one comes to an exit, are shown to keep the meaning; what fails first of the
others is counted, M9 where there is no certificate, M10 where no exit is reached.
"""
import collections
import os
import pathlib
import random
import re
import subprocess
import sys
import tempfile
from concurrent.futures import ThreadPoolExecutor

import fuzz
import harden

EXAMPLES = pathlib.Path(__file__).resolve().parent.parent / 'examples'
MANY = 65536
# How many slots an image may have, and how many programs one process is given.
SLOTS, BATCH = 65536, 250

# An image, its order and the length of its contexts, the turns of loops, and whether an F3 tells that the new program traps.
Case = collections.namedtuple('Case', 'image big length turns tells')


class Wrong(Exception):
    pass


def slots_of(line):
    return 0 if line.endswith(':') else 2 if line.endswith(' ll') else 1


def assembled(bpf, folder, programs, big):
    """The images of programs: all are assembled at once, since a program is the same wherever it stands."""
    text, sizes = [], []
    for number, program in enumerate(programs):
        text += [re.sub(r'\b(l\d+|helper)\b', rf'\1_{number}', line) for line in program.lines]
        sizes.append(8 * sum(map(slots_of, program.lines)))
    source, image = os.path.join(folder, 'all.asm'), os.path.join(folder, 'all.img')
    pathlib.Path(source).write_text('\n'.join(text) + '\n')
    subprocess.run([bpf, 'asm', *['--big'] * big, source, image], check=True)
    whole = pathlib.Path(image).read_bytes()
    if len(whole) != sum(sizes) or len(whole) > 8 * SLOTS:
        raise Wrong(f'the image of {len(programs)} programs has {len(whole)} bytes')
    ends = [sum(sizes[:number + 1]) for number in range(len(sizes))]
    return [whole[end - size:end] for end, size in zip(ends, sizes)]


def cases_of(bpf, folder, rng, count):
    """As many cases of each kind: whole programs, and the same with one byte changed."""
    def turns():
        return rng.choice([MANY] * 5 + [1, 2, 5])
    examples = [path.read_bytes() for path in sorted([*EXAMPLES.glob('*.img'), *EXAMPLES.glob('c/*.img')])]
    big, cases = rng.random() < 0.2, []
    programs = [harden.Program(rng) for _ in range(count * 4 // 5)]
    for program, image in zip(programs, assembled(bpf, folder, programs, big)):
        cases.append(Case(image, big, program.length, turns(), True))
    for _ in range(count - len(cases)):
        cases.append(Case(fuzz.altered_bytes(rng, rng.choice(examples)), big, rng.choice([0, 4, 16, 64, 128]), turns(), False))
    cases = [case for case in cases if case.image]
    return cases + [case._replace(image=harden.changed_byte(rng, case.image), tells=False) for case in cases]


def is_written_by_register(case):
    """Whether some store goes by another register than r10."""
    pairs = zip(case.image[::8], case.image[1::8])
    return any(code & 6 == 2 and (registers >> 4 if case.big else registers & 15) != 10 for code, registers in pairs)


def judged(case, shown, old, new):
    """Whether the new program may end so, where the old one ends as it does."""
    if old.isdigit():
        may_trap = case.turns < MANY or not shown and is_written_by_register(case)
        return new == old or may_trap and new == 'trap'
    return new == 'trap' or old != 'F3' or not case.tells or case.turns < MANY


def try_batch(bpf, forced, seed, count):
    """What becomes of the cases of a seed."""
    rng, found = random.Random(seed), collections.Counter()
    with tempfile.TemporaryDirectory() as folder:
        cases = cases_of(bpf, folder, rng, count)
    contexts = [harden.contexts_of(rng, case.length)[:6] for case in cases]
    lines = [' '.join(['big' if case.big else 'little', str(case.length), str(case.turns), case.image.hex(), *[c.hex() or 'none' for c in given]])
             for case, given in zip(cases, contexts)]
    done = subprocess.run([forced], input='\n'.join(lines) + '\n', capture_output=True, text=True, timeout=600)
    answers = done.stdout.splitlines()
    if done.returncode or len(answers) != len(cases):
        raise Wrong(f'seed {seed}: {len(answers)} answers for {len(cases)} cases, status {done.returncode} {done.stderr.strip()}')
    for case, given, line, answer in zip(cases, contexts, lines, answers):
        ends = [pair.split('/') for pair in answer.split() if '/' in pair]
        if not ends:
            found[answer[0] if answer[:1] in 'EH' else 'none'] += 1
            continue
        verdict = answer.split()[0]
        found['programs'] += 1
        found['left' if verdict.startswith('yes-') else verdict] += 1
        for context, (old, new) in zip(given, ends):
            if not judged(case, verdict == 'yes', old, new):
                raise Wrong(f'seed {seed}: on {context.hex()} {old} before, {new} by force: {line}')
            found['same' if new == old and old.isdigit() else 'trap' if new == 'trap' else 'other'] += 1
        if len(ends) != len(given):
            raise Wrong(f'seed {seed}: {answer!r} to {line}')
    return found


def main():
    bpf, forced = map(os.path.abspath, sys.argv[1:3])
    count = int(sys.argv[3]) if len(sys.argv) > 3 else 10_000
    first = int(sys.argv[4]) if len(sys.argv) > 4 else 1
    found = collections.Counter()
    batches = [min(BATCH, count - done) for done in range(0, count, BATCH)]
    try:
        with ThreadPoolExecutor(os.cpu_count()) as pool:
            for each in pool.map(lambda turn: try_batch(bpf, forced, first * 1000 + turn[0], turn[1]), enumerate(batches)):
                found += each
    except Wrong as wrong:
        sys.exit(f'forced.py: {wrong}')
    if found['programs'] < count or found['trap'] < count or found['same'] < count:
        sys.exit(f'forced.py: too few were compared: {dict(found)}')
    ending = found['programs'] - found['M9'] - found['M10']
    if 20 * (found['yes'] + found['left']) < 19 * ending or 2 * found['M9'] > found['programs']:
        sys.exit(f'forced.py: too few are shown to keep the meaning: {dict(found)}')
    print(f'forced: of {2 * count} programs {found["programs"]} with guards and counters by force: {found["same"]} runs end with the same number, '
          f'{found["trap"]} in the trap; no image {found["E"]}, refused {found["H"]}; shown to keep the meaning {found["yes"]}, '
          f'{found["left"]} where the lowest bytes of frames are left alone, '
          f'else {harden.counted(found, "M")}')


if __name__ == '__main__':
    main()

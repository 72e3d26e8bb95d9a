#!/usr/bin/env python3
"""slow.py BPF: images that were made to take long are answered within the time and the memory that SECURITY.md names.

- a nest of 24 or 32 loops around loads through a pointer that may lie anywhere in a frame of 64 different numbers;
- the same around jumps that lead on by one;
- one loop in which 60 slots of the frame are copied one on, so that each round of the search for notes learns of one slot more;
- eight loops that nothing counts, and seven functions of such chains.

Time is that of the processor, and its limit is ten times what SECURITY.md says, so that a machine under load passes; memory is the
greatest that the process held. Which answer comes isn't asked, only that it is one: a yes, or a refusal with a number."""

import os
import re
import resource
import struct
import subprocess
import sys
import tempfile

# What SECURITY.md says: seconds of the processor, and megabytes.
SECONDS = {"infer": 10, "harden": 15}
MEGABYTES = {"infer": 512, "harden": 400}
SLACK = 10
SLOTS = 65_000
FRAME_SLOTS = 64


def slot(opcode, dst=0, src=0, off=0, imm=0):
    return struct.pack("<BBhi", opcode, src << 4 | dst, off, imm)


def move(dst, src):
    return slot(0xBF, dst, src)


def constant(dst, imm):
    return slot(0xB7, dst, imm=imm)


def load(dst, depth):
    """What lies in the frame's slot of this number."""
    return slot(0x79, dst, 10, -8 * depth)


def store(depth, src):
    return slot(0x7B, 10, src, -8 * depth)


def back(code, head):
    """A long jump back."""
    return slot(0x06, imm=head - len(code) - 1)


EXIT = slot(0x95)
BYTE = slot(0x71, 4, 8)
HOP = slot(0xAD, 5, 7, 1)


def full_frame():
    """Different numbers in all slots of the frame and in the registers."""
    code = [move(6, 1), slot(0x79, 7, 6)] + [move(r, 7) for r in (0, 1, 3, 4, 5, 8, 9)]
    for depth in range(1, FRAME_SLOTS + 1):
        code += [move(0, 7), slot(0x57, 0, imm=0x7FFF0000 - 65793 * depth), slot(0x47, 0, imm=depth), store(depth, 0)]
    return code + [slot(0x57, 8, imm=504), move(0, 10), slot(0x1F, 0, 8), move(8, 0), slot(0x07, 8, imm=-8)]


def nest(loops, body):
    """Loops in one another that are counted in the frame, around as much of a body as there is room for."""
    code, heads = full_frame(), []
    for number in range(loops):
        code += [constant(5, 0), store(18 + number, 5)]
        heads.append(len(code))
    ends = 6 * loops + 2
    code += body * ((SLOTS - len(code) - ends) // len(body))
    for number in reversed(range(loops)):
        code += [load(5, 18 + number), slot(0x07, 5, imm=1), store(18 + number, 5), slot(0x35, 5, off=1, imm=100 + number)]
        code.append(back(code, heads[number]))
    return code + [constant(0, 0), EXIT]


def chain_of(slots, at=6):
    """A loop in which 60 slots of the frame are copied one on. It ends with an order of pointers."""
    code = [move(6, 1), constant(0, 1), constant(3, 1), constant(4, 1), constant(7, 100)]
    code += [slot(0x7A, 10, off=-8 * depth, imm=5) for depth in range(1, 61)]
    head = len(code)
    for depth in range(59, 0, -1):
        code += [load(4, depth), store(depth + 1, 4)]
    code.append(store(1, 0))
    code += [constant(0, 7)] * (slots - len(code) - 20)
    code += [slot(0x07, 7, imm=-1), slot(0x15, 7, off=1)]
    code.append(back(code, head))
    code += [slot(0x71, 2, 6), move(3, 6), slot(0x0F, 3, 2), slot(0x71, 4, 3), store(63, 10), load(8, 63), slot(0x7B, 8, 0, -16)]
    return code + [slot(0x2D, 3, 6), constant(0, 0), EXIT]


def functions_of_chains(count=7):
    """Functions of chains, called one behind the other."""
    parts = [chain_of(SLOTS // count) for _ in range(count)]
    main = [move(9, 1)]
    at = 1 + 2 * count + 2
    for part in parts:
        main += [move(1, 9), slot(0x85, 0, 1, imm=at - len(main) - 2)]
        at += len(part)
    return main + [constant(0, 0), EXIT] + [code for part in parts for code in part]


def uncounted(loops, hops):
    """Loops in one another that halve a byte of the context."""
    code, heads = [move(6, 1), slot(0x71, 7, 6), constant(0, 1)], []
    for number in range(loops):
        code.append(store(1 + number, 7))
        heads.append(len(code))
    code += [slot(0x15, 0, off=1, imm=7), slot(0x07, 0, imm=1)] * hops
    for number in reversed(range(loops)):
        code += [load(5, 1 + number), slot(0x77, 5, imm=1), store(1 + number, 5), slot(0x15, 5, off=1)]
        code.append(back(code, heads[number]))
    return code + [constant(0, 0), EXIT]


IMAGES = [
    ("24 loops around loads from the frame", nest(24, [BYTE])),
    ("32 loops around jumps", nest(32, [HOP, slot(0x07, 0, imm=1)])),
    ("8 loops around jumps", nest(8, [HOP, slot(0x07, 0, imm=1)])),
    ("a chain of 60 copies", chain_of(SLOTS)),
    ("seven functions of chains", functions_of_chains()),
    ("8 loops that nothing counts", uncounted(8, 500)),
    ("30 loops that nothing counts", uncounted(30, 6000)),
]
COMMANDS = [("infer", "--deep"), ("harden",)]


def asked(bpf, words, folder):
    """The status, what is written, and the seconds and megabytes that it takes."""
    limit = SECONDS[words[0]] * SLACK
    reader, writer = os.pipe()
    child = os.fork()
    if child == 0:
        os.dup2(writer, 1)
        os.dup2(os.open(os.devnull, os.O_WRONLY), 2)
        os.close(reader)
        resource.setrlimit(resource.RLIMIT_CPU, (limit, limit))
        os.execv(bpf, [bpf, words[0], "image", "64", "out", *words[1:]])
    os.close(writer)
    with os.fdopen(reader, "rb") as out:
        said = out.read().decode()
    _, status, used = os.wait4(child, 0)
    return status, said, used.ru_utime + used.ru_stime, used.ru_maxrss / 1024


def main():
    bpf = os.path.realpath(sys.argv[1])
    faults, lines = 0, []
    with tempfile.TemporaryDirectory() as folder:
        os.chdir(folder)
        for shows, code in IMAGES:
            with open("image", "wb") as out:
                out.write(b"".join(code))
            for words in COMMANDS:
                status, said, seconds, megabytes = asked(bpf, words, folder)
                is_answer = os.WIFEXITED(status) and os.WEXITSTATUS(status) in (0, 1) and (said == "" or re.match(r"(yes|no [A-Z]\d+|untouched) ", said))
                is_right = is_answer and megabytes <= MEGABYTES[words[0]]
                faults += not is_right
                lines.append(f"{shows}, {' '.join(words)}: {seconds:.1f} s, {megabytes:.0f} MB, {said.strip() or 'written'}")
                if not is_right or "-v" in sys.argv:
                    print(lines[-1], f"status {status:#x}" if not is_right else "", flush=True)
    print(f"slow: {len(lines) - faults} of {len(lines)} answered within their limits")
    return 1 if faults else 0


if __name__ == "__main__":
    sys.exit(main())

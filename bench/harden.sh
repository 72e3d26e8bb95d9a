#!/usr/bin/env bash
# Times `bpf harden` on programs of 20,000 slots: walking pointers, indexes that nothing tests, loops that nothing counts, functions,
# a loop around many accesses, nests of loops, and arrays in the frame. Each has to be hardened within 5 seconds of processor time and
# 512 MB, and to get a certificate then. Images of 65,000 slots that were made to take long have to end, hardened or refused.
# Usage: bench/harden.sh [ROUNDS], 3 if not said. BPF names another command than ./bpf.
set -eu
rounds=${1:-3}
. "$(dirname "${BASH_SOURCE[0]}")/common.sh"

python3 - "$bpf" "$dir" "$rounds" <<'END'
import os
import pathlib
import statistics
import struct
import subprocess
import sys

bpf, folder, rounds = sys.argv[1], pathlib.Path(sys.argv[2]), int(sys.argv[3])
SLOTS, LENGTH = 20_000, 64


def insn(opcode, dst=0, src=0, off=0, imm=0):
    return struct.pack("<BBhi", opcode, dst | src << 4, off, imm)


def put(dst, imm):
    return insn(0xB7, dst, imm=imm)


def move(dst, src):
    return insn(0xBF, dst, src)


def add(dst, imm):
    return insn(0x07, dst, imm=imm)


def plus(dst, src):
    return insn(0x0F, dst, src)


def byte(dst, src, off=0):
    return insn(0x71, dst, src, off)


START, EXIT = put(0, 0) + move(6, 1), insn(0x95)
WALK = move(2, 6) + add(2, 16) + move(3, 6) + byte(4, 3) + plus(0, 4) + add(3, 1) + insn(0x5D, 3, 2, off=-4)
INDEX = byte(2, 6) + move(3, 6) + plus(3, 2) + byte(4, 3, 1) + plus(0, 4)
HALVE = byte(2, 6) + insn(0x77, 2, imm=1) + add(0, 1) + insn(0x55, 2, off=-3)
ARRAY = byte(2, 6) + move(3, 10) + plus(3, 2) + insn(0x72, 3, off=-256, imm=1) + byte(4, 3, -256) + plus(0, 4)
# r2 is above 0, or r1 isn't used: the access behind the jump is never made
DEAD = byte(2, 6) + insn(0x15, 2, off=2) + put(0, 0) + insn(0x05, off=1) + byte(3, 1, 500) + add(0, 1)


def times(piece, slots=SLOTS - 3):
    return piece * (slots // (len(piece) // 8))


def nest(depth, body):
    for register in range(7, 7 + depth):
        body = put(register, 3) + body + add(register, -1) + insn(0x55, register, off=-(len(body) // 8 + 2))
    return body


def functions(count):
    body = START + times(WALK, SLOTS // count - 5) + EXIT
    ahead, calls = 2 * count, b""
    for number in range(count):
        calls += move(1, 7) + insn(0x85, src=1, imm=ahead - 2 * number - 1 + number * (len(body) // 8))
    return move(7, 1) + calls + EXIT + body * count


around = times(INDEX, SLOTS - 10)
PROGRAMS = {
    "walks": START + times(WALK) + EXIT,
    "indexes": START + times(INDEX) + EXIT,
    "halves": START + times(HALVE) + EXIT,
    "functions": functions(200),
    "long-loop": START + put(7, 10) + around + add(7, -1) + insn(0x15, 7, off=1) + insn(0x06, imm=-(len(around) // 8 + 3)) + EXIT,
    "nests": START + times(nest(3, WALK)) + EXIT,
    "arrays": START + times(ARRAY) + EXIT,
    "dead": START + times(DEAD) + EXIT,
}


def run(words, statuses=(0,)):
    """The seconds of processor time of one run, and its greatest memory in megabytes."""
    null = [(os.POSIX_SPAWN_OPEN, 1, os.devnull, os.O_WRONLY, 0)]
    child = os.posix_spawn(bpf, [bpf] + words, os.environ, file_actions=null)
    _, status, usage = os.wait4(child, 0)
    if os.waitstatus_to_exitcode(status) not in statuses:
        sys.exit(f"harden.sh: {' '.join(words)} failed")
    return usage.ru_utime + usage.ru_stime, usage.ru_maxrss / 1024


print("seconds of processor time, medians, and the greatest memory")
slow = False
new, certificate = folder / "new.img", folder / "new.cert"
for name, image in PROGRAMS.items():
    old = folder / name
    old.write_bytes(image)
    runs = [run(["harden", "--unproved", str(old), str(LENGTH), str(new)]) for _ in range(rounds)]
    run(["infer", "--deep", str(new), str(LENGTH), str(certificate)])
    said = subprocess.run([bpf, "check", str(new), str(certificate)], capture_output=True, text=True).stdout
    if not said.startswith("yes "):
        sys.exit(f"harden.sh: {name} is refused: {said}")
    time, memory = statistics.median(t for t, _ in runs), max(m for _, m in runs)
    slow = slow or time > 5 or memory > 512
    print(f"{name:10} {len(image) // 8:7,} slots before {new.stat().st_size // 8:7,} after {time:8.3f} s {memory:7.1f} MB")

# Loops in one another over hops, which are settled anew in each turn of those around.
HOPS = put(2, 1) + (insn(0x15, 2, off=1, imm=7) + add(0, 1)) * 32_000
body = HOPS
for k in range(64, 40, -1):
    tail = insn(0x79, 5, 10, -8 * k) + add(5, 1) + insn(0x7B, 10, 5, -8 * k) + insn(0x35, 5, off=1, imm=5)
    body = insn(0x7A, 10, 0, -8 * k) + body + tail + insn(0x06, imm=-((len(body) + len(tail)) // 8 + 1))
(folder / "hard").write_bytes(put(0, 0) + body + put(0, 0) + EXIT)
time, memory = run(["harden", "--unproved", str(folder / "hard"), "8", str(new)], (0, 1))
print(f"{'hard':10} {(folder / 'hard').stat().st_size // 8:7,} slots, hardened or refused {time:17.3f} s {memory:7.1f} MB")
if slow:
    sys.exit("harden.sh: a program of 20,000 slots took more than 5 seconds or 512 MB")
END

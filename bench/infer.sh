#!/usr/bin/env bash
# Times `bpf infer` on straight lines, on many branches, on a loop over many branches, and on many functions, and
# `bpf infer --deep` on these, on 5,000 loops in a row, and on nests of loops of 4,000 and of 65,000 slots; and both on
# images of up to 65,536 slots that were made to take long, each of which has to end, with a certificate or a refusal,
# within 10 seconds of processor time and 512 MB.
# Usage: bench/infer.sh [ROUNDS], 5 if not said. BPF names another command than ./bpf.
set -eu
rounds=${1:-5}
. "$(dirname "${BASH_SOURCE[0]}")/common.sh"

python3 - "$dir" <<'END'
import pathlib
import struct
import sys


def insn(opcode, dst=0, src=0, off=0, imm=0):
    return struct.pack("<BBhi", opcode, dst | src << 4, off, imm)


ZERO, EXIT = insn(0xB7), insn(0x95)
# r0 = *(u8 *)(r1 + 0); if r0 == 0 goto +1; r0 += 1
BRANCH = insn(0x71, 0, 1) + insn(0x15, off=1) + insn(0x07, imm=1)


def loop(register, turns, body):
    """A countdown around a body, which may be too long for a jump of 16 bits."""
    back = -(len(body) // 8 + 3)
    return insn(0xB7, register, imm=turns) + body + insn(0x07, register, imm=-1) + insn(0x15, register, off=1) + insn(0x06, imm=back)


def nest(depth, slots):
    """Loops in one another over branches."""
    body = BRANCH * ((slots - 4 * depth - 2) // 3)
    for register in range(6, 6 + depth):
        body = loop(register, 3, body)
    return ZERO + body + EXIT


def nests(depth, slots):
    """Nests in a row, with two branches in each."""
    one = BRANCH * 2
    for register in range(6, 6 + depth):
        one = loop(register, 3, one)
    return ZERO + one * ((slots - 2) // (len(one) // 8)) + EXIT


functions = 255
# each function calls none; slot 0 calls them all
CALLS = b"".join(insn(0x85, src=1, imm=functions + i) for i in range(functions)) + EXIT
PROGRAMS = {
    "start": ZERO + EXIT,
    "lines": ZERO * 65_535 + EXIT,
    "branches": BRANCH * 21_845 + EXIT,
    "loop": loop(6, 10, BRANCH * 7_000) + EXIT,
    "functions": CALLS + (ZERO + EXIT) * functions,
    "loops": ZERO + (insn(0xB7, 6, imm=5) + insn(0x07, 6, imm=-1) + insn(0x55, 6, off=-2)) * 5_000 + EXIT,
}
for depth in range(1, 5):
    PROGRAMS[f"nest-{depth}"] = nest(depth, 4_000)
    PROGRAMS[f"nests-{depth}"] = nests(depth, 4_000)
# Nests of 65,000 slots, whose weights are over a limit where the loops are four deep around all of them.
PROGRAMS["nests-long"] = nests(4, 65_000)
PROGRAMS["hard-nest"] = nest(4, 65_000)


# ---- images that take long: jumps lead to the next slot, so that each slot is a label

JUMP = insn(0x15, 2, off=0, imm=7)
# all registers and slots of the frame hold a number that was loaded and masked
FULL = b"".join(
    [insn(0x79, 0, 1), insn(0x57, 0, imm=0xFFF0), insn(0x47, 0, imm=1)]
    + [insn(0x7B, 10, 0, -8 * k) for k in range(1, 65)]
    + [insn(0xBF, register, 0) for register in range(1, 10)])


def counted(depth, slot, body):
    """Loops in one another over a body; each counts in a slot of the frame of its own, from `slot` on."""
    for k in range(slot + depth - 1, slot - 1, -1):
        head = insn(0x7A, 10, 0, -8 * k)
        tail = insn(0x79, 5, 10, -8 * k) + insn(0x07, 5, imm=1) + insn(0x7B, 10, 5, -8 * k) + insn(0x35, 5, off=1, imm=5)
        body = head + body + tail + insn(0x06, imm=-((len(body) + len(tail)) // 8 + 1))
    return body


def dead(levels):
    """Branches that are never taken, each behind the one before it."""
    return ZERO + (insn(0x55, off=1) + EXIT + ZERO) * levels + EXIT


LINES = insn(0xB7, 0, imm=1) * 60_000
HOPS = insn(0xB7, 2, imm=1) + (insn(0x15, 2, off=1, imm=7) + insn(0x07, imm=1)) * 32_000
PROGRAMS["hard-full"] = FULL + JUMP * 65_000 + EXIT
PROGRAMS["hard-loops"] = FULL + counted(20, 1, JUMP * 65_000) + ZERO + EXIT
PROGRAMS["hard-hops"] = ZERO + counted(24, 41, HOPS) + ZERO + EXIT
PROGRAMS["hard-lines"] = counted(24, 41, LINES) + dead(30)
PROGRAMS["hard-dead"] = ZERO + counted(24, 41, HOPS) + dead(100)
for name, image in PROGRAMS.items():
    assert len(image) <= 524_288, name
    pathlib.Path(sys.argv[1], name).write_bytes(image)
END

PLAIN="start lines branches loop functions"
DEEP="start lines branches loop functions loops nest-1 nest-2 nest-3 nest-4 nests-1 nests-2 nests-3 nests-4 nests-long"
HARD="hard-nest hard-full hard-loops hard-hops hard-lines hard-dead"

# Each must get a certificate that is accepted, else a refusal would be timed.
judge() {
    case $("$bpf" check "$dir/$1" "$dir/$1.cert") in
    "yes length 1 bound "*) ;;
    *) echo "infer.sh: $1 is refused" >&2; exit 1 ;;
    esac
}
for name in $PLAIN; do
    "$bpf" infer "$dir/$name" 1 "$dir/$name.cert"
    judge "$name"
done
for name in $DEEP; do
    "$bpf" infer --deep "$dir/$name" 1 "$dir/$name.cert"
    judge "$name"
done

python3 - "$bpf" "$dir" "$rounds" "$PLAIN" "$DEEP" "$HARD" <<'END'
import os
import pathlib
import statistics
import sys

bpf, folder, rounds = sys.argv[1], pathlib.Path(sys.argv[2]), int(sys.argv[3])
plain, deep, hard = (names.split() for names in sys.argv[4:7])


def run(words, may_refuse=False):
    """The seconds of processor time of one run, and its greatest memory in megabytes."""
    null = [(os.POSIX_SPAWN_OPEN, 1, os.devnull, os.O_WRONLY, 0)]
    child = os.posix_spawn(bpf, [bpf] + words, os.environ, file_actions=null)
    _, status, usage = os.wait4(child, 0)
    if status and not (may_refuse and os.waitstatus_to_exitcode(status) == 1):
        sys.exit(f"infer.sh: {' '.join(words)} failed")
    return usage.ru_utime + usage.ru_stime, usage.ru_maxrss / 1024


def measure(flags, name):
    runs = [run(["infer", *flags, str(folder / name), "1", str(folder / "timed.cert")]) for _ in range(rounds)]
    return statistics.median(time for time, _ in runs), max(memory for _, memory in runs)


print("seconds of processor time, medians, and the greatest memory")
for title, flags, names in [("infer", [], plain), ("infer --deep", ["--deep"], deep)]:
    print(title)
    start, _ = measure(flags, "start")
    for name in names[1:]:
        count = (folder / name).stat().st_size // 8
        time, memory = measure(flags, name)
        time -= start
        rate = f"{count / time:12,.0f} instructions/second" if time > 0 else "in the noise"
        print(f"{name:10} {count:7,} instructions {time:8.3f} s {memory:7.1f} MB {rate}")

print("images that take long, refused or not")
slow = False
for name in hard:
    count = (folder / name).stat().st_size // 8
    for flags in ([], ["--deep"]):
        time, memory = run(["infer", *flags, str(folder / name), "8", str(folder / "timed.cert")], may_refuse=True)
        slow = slow or time > 10 or memory > 512
        print(f"{name:10} {count:7,} instructions {time:8.3f} s {memory:7.1f} MB {' '.join(flags)}")
if slow:
    sys.exit("infer.sh: a search took more than 10 seconds or 512 MB")
END

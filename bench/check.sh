#!/usr/bin/env bash
# Times `bpf check` on programs of the greatest length, and on a loop of a billion turns.
# Usage: bench/check.sh [RUNS [ROUNDS]], 20 runs and 5 rounds if not said. BPF names another command than ./bpf.
# DPDK names a program that validates an image with DPDK's library, so often: `DPDK validate IMAGE LENGTH TIMES`. Where it is named, it is
# timed beside, by turns, on *lines* and *random*.
set -eu
runs=${1:-20}
rounds=${2:-5}
. "$(dirname "${BASH_SOURCE[0]}")/common.sh"

python3 - "$dir" <<'END'
import pathlib
import random
import struct
import sys

EXIT = ("95 00 00 00", 0)
ZERO = ("b7 00 00 00", 0)
STORE, LOAD = ("7a 0a f8 ff", 7), ("79 a0 f8 ff", 0)
LABELS = 21_000
BRANCHES = 21_844
# r3 to r7 are words of the context
WORDS = [(f"79 1{r:x} {8 * (r - 3):02x} 00", 0) for r in range(3, 8)]
# + - * | & << >> ^ = s>>, of 64 bits and of 32
OPERATIONS = [part | kind for part in (0x00, 0x10, 0x20, 0x40, 0x50, 0x60, 0x70, 0xA0, 0xB0, 0xC0) for kind in (0x07, 0x04)]
chance = random.Random(1)


def operation():
    """A random operation on two of the five registers, or on one and a constant. A shift is by a constant below 32."""
    code, dst, src = chance.choice(OPERATIONS), chance.randrange(3, 8), chance.randrange(3, 8)
    shifts = code & 0xF0 in (0x60, 0x70, 0xC0)
    if not shifts and chance.random() < 0.5:
        return f"{code | 0x08:02x} {src:x}{dst:x} 00 00", 0
    return f"{code:02x} 0{dst:x} 00 00", chance.randrange(32) if shifts else chance.randrange(-(2**31), 2**31)


# Programs that read a context of 64 bytes, to which r1 points.
READING = {
    # operations on five registers of which nothing is known, by chance
    "random": (WORDS + [operation() for _ in range(65_529)] + [ZERO, EXIT], 65_536, []),
    # a byte of the context, a test of it, and a label behind the next instruction
    "branches": (
        [
            slot
            for i in range(BRANCHES)
            for slot in [(f"71 13 {i % 64:02x} 00", 0), ("15 03 01 00", i % 256), ZERO]
        ]
        + [ZERO, EXIT],
        3 * BRANCHES + 2,
        [line for i in range(1, BRANCHES + 1) for line in [f"at {3 * i} {3 * (BRANCHES - i) + 2}", "r1 ctx0..0"]],
    ),
}
PROGRAMS = {
    "start": ([ZERO, EXIT], 2, ["at 0 2"]),
    "lines": ([ZERO] * 65_535 + [EXIT], 65_536, ["at 0 65536"]),
    # a store to a stack slot and a load of it, in turn
    "memory": ([STORE, LOAD] * 32_767 + [ZERO, EXIT], 65_536, ["at 0 65536"]),
    # 255 functions of 256 instructions
    "functions": (
        ([ZERO] * 255 + [EXIT]) * 255,
        256,
        ["at 0 256"] + [line for i in range(1, 255) for line in [f"fn {256 * i} 1 *", f"at {256 * i} 256"]],
    ),
    # two instructions and a jump to the next label
    "labels": (
        [ZERO, ZERO, ("05 00 00 00", 0)] * LABELS + [ZERO, EXIT],
        3 * LABELS + 2,
        [f"at {3 * i} {3 * (LABELS - i) + 2}" for i in range(LABELS + 1)],
    ),
    # the same, with eight stored slots in each label's state
    "slots": (
        [(f"7a 0a {256 - 8 * k:02x} ff", 7) for k in range(1, 9)] + [ZERO, ZERO, ("05 00 00 00", 0)] * LABELS + [ZERO, EXIT],
        3 * LABELS + 10,
        [f"at 0 {3 * LABELS + 10}"]
        + [line for i in range(1, LABELS + 1) for line in [f"at {3 * i + 8} {3 * (LABELS - i) + 2}", *(f"s{k} *" for k in range(1, 9))]],
    ),
    "loop": (
        [("b7 06 00 00", 10**9), ("07 06 00 00", -1), ("55 06 fe ff", 0), ZERO, EXIT],
        2 * 10**9 + 3,
        [f"at 0 {2 * 10**9 + 3}", "at 1 2 +2*r6", f"r6 u1..{10**9}"],
    ),
}
for name, (slots, steps, labels) in PROGRAMS.items():
    image = b"".join(bytes.fromhex(head) + struct.pack("<i", imm) for head, imm in slots)
    pathlib.Path(sys.argv[1], f"{name}.img").write_bytes(image)
    text = "\n".join([f"bpfcert 1 0 {steps}", "fn 0 1 *", *labels, "end", ""])
    pathlib.Path(sys.argv[1], f"{name}.cert").write_text(text)
for name, (slots, steps, labels) in READING.items():
    image = b"".join(bytes.fromhex(head) + struct.pack("<i", imm) for head, imm in slots)
    pathlib.Path(sys.argv[1], f"{name}.img").write_bytes(image)
    text = "\n".join([f"bpfcert 2 64 64 {steps}", "fn 0 1 *", f"at 0 {steps}", "r1 ctx0..0", *labels, "end", ""])
    pathlib.Path(sys.argv[1], f"{name}.cert").write_text(text)
END
names="start lines functions memory labels slots random branches loop"

# Each must be accepted, else its refusal would be timed. The first call also builds the command, if need be.
for name in $names; do
    case $("$bpf" check "$dir/$name.img" "$dir/$name.cert") in
    "yes length "*) ;;
    *) echo "check.sh: $name is refused" >&2; exit 1 ;;
    esac
done

TIMEFORMAT='%3U %3S'
for ((round = 0; round < rounds; round++)); do
    for name in $names; do
        { time for ((i = 0; i < runs; i++)); do "$bpf" check "$dir/$name.img" "$dir/$name.cert" >/dev/null; done; } 2>>"$dir/$name.times"
    done
    [ -z "${DPDK-}" ] || for name in lines random; do
        { time "$DPDK" validate "$dir/$name.img" 64 1 >/dev/null; } 2>>"$dir/$name.once"
        { time "$DPDK" validate "$dir/$name.img" 64 "$((runs + 1))" >/dev/null; } 2>>"$dir/$name.often"
    done
done

python3 - "$dir" "$runs" "$rounds" <<'END'
import pathlib
import statistics
import sys

folder, runs, rounds = pathlib.Path(sys.argv[1]), int(sys.argv[2]), int(sys.argv[3])


def micros(file):
    """The median over the rounds of the microseconds of processor time that one run takes."""
    lines = (folder / file).read_text().splitlines()
    return statistics.median(sum(float(word) for word in line.split()) * 1e6 / runs for line in lines)


print(f"{runs} runs in a loop, median of {rounds} rounds; microseconds of processor time for one run.")
print(f"{'':34}{'whole':>9}{'less start':>12}{'instructions/second':>21}")
start = micros("start.times")
print(f"{'2 instructions (start)':34}{start:9.0f}")
for name, count in [("lines", 65_536), ("functions", 65_280), ("memory", 65_536), ("labels", 63_002), ("slots", 63_010), ("random", 65_536), ("branches", 65_534)]:
    whole = micros(f"{name}.times")
    rate = f"{1e6 * count / (whole - start):21,.0f}" if whole > start else f"{'in the noise':>21}"
    print(f"{f'{count:,} instructions, {name}':34}{whole:9.0f}{whole - start:12.0f}{rate}")
print(f"{'a loop of 1,000,000,000 turns':34}{micros('loop.times'):9.0f}{micros('loop.times') - start:12.0f}")
for name in ["lines", "random"]:
    if (folder / f"{name}.often").exists():
        beside = micros(f"{name}.often") - micros(f"{name}.once")
        print(f"{f'DPDK validates {name}':34}{'':9}{beside:12.0f}   check's time over its: {(micros(f'{name}.times') - start) / beside:.2f}")
END

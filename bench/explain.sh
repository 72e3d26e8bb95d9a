#!/usr/bin/env bash
# Times `bpf explain`, and its graphs, on programs of the greatest length.
# Usage: bench/explain.sh [RUNS [ROUNDS]], 5 runs and 5 rounds if not said. BPF names another command than ./bpf.
set -eu
runs=${1:-5}
rounds=${2:-5}
. "$(dirname "${BASH_SOURCE[0]}")/common.sh"

python3 - "$dir" <<'END'
import pathlib
import struct
import sys

EXIT = ("95 00 00 00", 0)
ZERO = ("b7 00 00 00", 0)
COUNT, FALL, BACK = ("b7 06 00 00", 10), ("07 06 00 00", -1), ("55 06 fe ff", 0)
PART = 21_000


def branches():
    """Two instructions and a branch over the first of the next three."""
    slots = [ZERO, ("15 02 01 00", 5), ZERO] * PART + [ZERO, EXIT]
    left = lambda i: 3 * (PART - i) + 2
    labels = [f"at 0 {left(0)}", "r2 *"]
    for i in range(PART):
        labels += [f"at {3 * i + 3} {left(i + 1)}", "r0 *", "r2 *"]
    return slots, left(0), labels


def loops():
    """Loops of ten rounds, one behind the other."""
    slots = [COUNT, FALL, BACK] * PART + [ZERO, EXIT]
    left = lambda i: 21 * (PART - i) + 2
    labels = [f"at 0 {left(0)}"]
    for i in range(PART):
        labels += [f"at {3 * i + 1} {left(i + 1)} +2*r6", "r6 u1..10"]
    return slots, left(0), labels


def functions():
    """255 functions of 256 instructions."""
    labels = ["at 0 256"]
    for i in range(1, 255):
        labels += [f"fn {256 * i} 1 *", f"at {256 * i} 256"]
    return ([ZERO] * 255 + [EXIT]) * 255, 256, labels


PROGRAMS = {
    "start": ([ZERO, EXIT], 2, ["at 0 2"]),
    "lines": ([ZERO] * 65_535 + [EXIT], 65_536, ["at 0 65536"]),
    # a store to a stack slot and a load of it, in turn
    "memory": ([("7a 0a f8 ff", 7), ("79 a0 f8 ff", 0)] * 32_767 + [ZERO, EXIT], 65_536, ["at 0 65536"]),
    "branches": branches(),
    "loops": loops(),
    "functions": functions(),
    # nothing is known of r3: all that follows has no state
    "refused": ([("bf 30 00 00", 0)] + [ZERO] * 65_534 + [EXIT], 65_536, ["at 0 65536"]),
}
for name, (slots, steps, labels) in PROGRAMS.items():
    image = b"".join(bytes.fromhex(head) + struct.pack("<i", imm) for head, imm in slots)
    pathlib.Path(sys.argv[1], f"{name}.img").write_bytes(image)
    text = "\n".join([f"bpfcert 1 0 {steps}", "fn 0 1 *", *labels, "end", ""])
    pathlib.Path(sys.argv[1], f"{name}.cert").write_text(text)
END

names="start lines memory branches loops functions refused"

# Each but the last must be accepted. The first call also builds the command, if need be.
for name in $names; do
    answer=$("$bpf" explain "$dir/$name.img" "$dir/$name.cert" | grep -E '^(accepted|refused):' || true)
    case $name:$answer in
    refused:refused:* | *:accepted:*) ;;
    *) echo "explain.sh: $name: $answer" >&2; exit 1 ;;
    esac
done

TIMEFORMAT='%3U %3S'
for ((round = 0; round < rounds; round++)); do
    for name in $names; do
        for word in "" --dot; do
            { time for ((i = 0; i < runs; i++)); do "$bpf" explain "$dir/$name.img" "$dir/$name.cert" $word >/dev/null || true; done; } 2>>"$dir/$name$word.times"
        done
    done
done

python3 - "$dir" "$runs" "$rounds" <<'END'
import pathlib
import statistics
import sys

folder, runs, rounds = pathlib.Path(sys.argv[1]), int(sys.argv[2]), int(sys.argv[3])


def millis(name):
    """The median over the rounds of the milliseconds of processor time that one run takes."""
    lines = (folder / f"{name}.times").read_text().splitlines()
    return statistics.median(sum(float(word) for word in line.split()) * 1e3 / runs for line in lines)


print(f"{runs} runs in a loop, median of {rounds} rounds; milliseconds of processor time for one run.")
print(f"{'':36}{'listing':>10}{'graph':>10}")
print(f"{'2 instructions (start)':36}{millis('start'):10.1f}{millis('start--dot'):10.1f}")
COUNTS = {"lines": 65_536, "memory": 65_536, "branches": 63_002, "loops": 63_002, "functions": 65_280, "refused": 65_536}
for name, count in COUNTS.items():
    print(f"{f'{count:,} instructions, {name}':36}{millis(name):10.1f}{millis(name + '--dot'):10.1f}")
END

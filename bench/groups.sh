#!/usr/bin/env bash
# Times `bpf groups` on three images of the greatest length, against `cat` of the same files.
# Usage: bench/groups.sh [RUNS [ROUNDS]], 200 runs and 5 rounds if not said. BPF names another command than ./bpf.
set -eu
runs=${1:-200}
rounds=${2:-5}
. "$(dirname "${BASH_SOURCE[0]}")/common.sh"
empty=$(type -P true)

python3 - "$dir" <<'END'
import pathlib
import sys

SLOTS = 65_536
IMAGES = {
    "start": ["95 00 00 00 00 00 00 00"],
    "lines": ["b7 00 00 00 00 00 00 00"] * (SLOTS - 1) + ["95 00 00 00 00 00 00 00"],
    # r1 += r2, r3 = r1, r3 <<= 7, r3 ^= 255, w1 += 5, w2 = w1, r0 = 1, r1 &= r3
    "arithmetic": [
        "0f 21 00 00 00 00 00 00",
        "bf 13 00 00 00 00 00 00",
        "67 03 00 00 07 00 00 00",
        "a7 03 00 00 ff 00 00 00",
        "04 01 00 00 05 00 00 00",
        "bc 12 00 00 00 00 00 00",
        "b7 00 00 00 01 00 00 00",
        "5f 31 00 00 00 00 00 00",
    ]
    * (SLOTS // 8 - 1)
    + ["b7 00 00 00 00 00 00 00"] * 7
    + ["95 00 00 00 00 00 00 00"],
    "jumps": ["05 00 ff ff 00 00 00 00"] * SLOTS,
}
for name, slots in IMAGES.items():
    pathlib.Path(sys.argv[1], name).write_bytes(bytes.fromhex(" ".join(slots)))
END

# Each image must be a program, else its refusal would be timed. The first call also builds the command, if need be.
for image in start lines arithmetic jumps; do
    [ "$("$bpf" groups "$dir/$image")" = base ] || { echo "groups.sh: $image is refused" >&2; exit 1; }
done

# Appends to the file of that name the seconds that a loop over a command takes: by the clock, and of processor time for the
# user and for the system.
TIMEFORMAT='%3R %3U %3S'
loop() {
    local name=$1 i
    shift
    { time for ((i = 0; i < runs; i++)); do "$@" >/dev/null; done; } 2>>"$dir/$name.times"
}

for ((round = 0; round < rounds; round++)); do
    loop empty "$empty"
    loop cat-lines cat "$dir/lines"
    loop cat-arithmetic cat "$dir/arithmetic"
    loop cat-jumps cat "$dir/jumps"
    loop bpf-start "$bpf" groups "$dir/start"
    loop bpf-lines "$bpf" groups "$dir/lines"
    loop bpf-arithmetic "$bpf" groups "$dir/arithmetic"
    loop bpf-jumps "$bpf" groups "$dir/jumps"
done

python3 - "$dir" "$runs" "$rounds" <<'END'
import pathlib
import statistics
import sys

BYTES = 524_288
folder, runs, rounds = pathlib.Path(sys.argv[1]), int(sys.argv[2]), int(sys.argv[3])


def micros(name):
    """The medians over the rounds of the microseconds that one run takes: of processor time, and by the clock."""
    lines = (folder / f"{name}.times").read_text().splitlines()
    rounds_of = [[float(word) * 1e6 / runs for word in line.split()] for line in lines]
    return statistics.median(u + s for _, u, s in rounds_of), statistics.median(c for c, _, _ in rounds_of)


def rate(time):
    return f"{1e6 * BYTES / time:>17,.0f}" if time > 0 else f"{'in the noise':>17}"


print(f"{BYTES:,} bytes, {runs} runs in a loop, median of {rounds} rounds.")
print("Microseconds for one run: by the clock, then of processor time, from which the rates are.")
print(f"{'':30}{'clock':>9}{'processor':>11}{'less true':>11}{'bytes/second':>17}{'less start':>12}{'bytes/second':>17}")
empty, clock = micros("empty")
print(f"{'true':30}{clock:9.0f}{empty:11.0f}")
start, clock = micros("bpf-start")
print(f"{'bpf groups, 8 bytes (start)':30}{clock:9.0f}{start:11.0f}{start - empty:11.0f}")
for image in ["lines", "arithmetic", "jumps"]:
    cat, clock = micros(f"cat-{image}")
    print(f"{f'cat, {image}':30}{clock:9.0f}{cat:11.0f}{cat - empty:11.0f}{rate(cat - empty)}")
    bpf, clock = micros(f"bpf-{image}")
    whole = f"{clock:9.0f}{bpf:11.0f}{bpf - empty:11.0f}{rate(bpf - empty)}"
    print(f"{f'bpf groups, {image}':30}{whole}{bpf - start:12.0f}{rate(bpf - start)}")
    if cat > empty:
        ratio, net = (bpf - empty) / (cat - empty), (bpf - start) / (cat - empty)
        print(f"  bpf takes {ratio:.1f} times the time of cat, {net:.1f} times without its start")
END

#!/usr/bin/env bash
# Times `bpf asm` on two texts of 65,536 lines, and `bpf list` on their images.
# Usage: bench/text.sh [ROUNDS], 5 if not said. BPF names another command than ./bpf.
set -eu
rounds=${1:-5}
. "$(dirname "${BASH_SOURCE[0]}")/common.sh"
python3 - "$dir" <<'END_OF_TEXTS'
import pathlib
import sys

LINES = 65_536
FORMS = [
    "r6 = -10", "w1 += w2", "r3 s>>= 63", "r4 = (s16)r5", "r0 = be32 r0", "r5 = *(u8 *)(r6 + 0)", "r7 = *(s32 *)(r10 - 512)",
    "*(u64 *)(r10 - 8) = r1", "*(u16 *)(r10 - 16) = 2147483647", "lock fetch *(u64 *)(r10 - 8) += r1", "lock cmpxchg *(u32 *)(r10 - 8), r1",
    "if r1 s> -2147483648 goto +0", "if w1 & w2 goto -1", "goto -1", "call +0", "exit",
]
texts = {
    "start": ["exit"],
    "forms": [FORMS[i % len(FORMS)] for i in range(LINES)],
    # Each label is named once, by the line that stands as far from the middle of its half on the other side.
    "labels": [f"label_{i}: goto label_{i // 32_768 * 32_768 + 32_767 - i % 32_768}" for i in range(LINES)],
}
for name, lines in texts.items():
    pathlib.Path(sys.argv[1], f"{name}.asm").write_text("\n".join(lines) + "\n")
END_OF_TEXTS

# The listing of `forms` is the text itself. The first call also builds the command, if need be.
for text in start forms labels; do
    "$bpf" asm "$dir/$text.asm" "$dir/$text.img" || { echo "text.sh: $text is refused" >&2; exit 1; }
    "$bpf" list "$dir/$text.img" >"$dir/$text.listing"
done
cmp "$dir/forms.asm" "$dir/forms.listing"

TIMEFORMAT='%3U %3S'
for ((round = 0; round < rounds; round++)); do
    for text in start forms labels; do
        { time "$bpf" asm "$dir/$text.asm" "$dir/$text.img"; } 2>>"$dir/asm-$text.times"
        { time "$bpf" list "$dir/$text.img" >/dev/null; } 2>>"$dir/list-$text.times"
    done
done

python3 - "$dir" <<'END'
import pathlib
import statistics
import sys

LINES = 65_536
folder = pathlib.Path(sys.argv[1])


def seconds(name):
    lines = (folder / f"{name}.times").read_text().splitlines()
    return statistics.median(sum(float(word) for word in line.split()) for line in lines)


print(f"{LINES:,} lines, processor time, medians, less that of a text of one line")
print(f"{'':18}{'bytes of text':>14}{'seconds':>10}{'lines/second':>14}{'bytes/second':>14}")
for text in ["forms", "labels"]:
    for command, end in [("asm", "asm"), ("list", "listing")]:
        size = (folder / f"{text}.{end}").stat().st_size
        time = seconds(f"{command}-{text}") - seconds(f"{command}-start")
        rates = f"{LINES / time:14,.0f}{size / time:14,.0f}" if time > 0 else "  in the noise"
        print(f"{f'bpf {command}, {text}':18}{size:14,}{time:10.3f}{rates}")
END

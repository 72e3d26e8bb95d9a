#!/usr/bin/env bash
# Shows that `bpf asm` takes time linear in the text: hostile texts of 4,000,000 and 8,000,000 bytes, and the ratio of their times.
# Usage: bench/texts.sh [ROUNDS], 5 if not said. BPF names another command than ./bpf.
set -eu
rounds=${1:-5}
. "$(dirname "${BASH_SOURCE[0]}")/common.sh"
python3 - "$dir" <<'END_OF_TEXTS'
import itertools
import pathlib
import sys

SIZES = [4_000_000, 8_000_000]
LETTERS = "abcdefghijklmnopqrstuvwxyz"


def names(length):
    return ("".join(letters) for letters in itertools.product(LETTERS, repeat=length))


def filled(lines, size):
    """The first of the lines that fill so many bytes, and `exit`."""
    taken, length = [], 0
    for line in lines:
        if length + len(line) > size:
            break
        taken.append(line)
        length += len(line)
    return "".join(taken) + "exit\n"


def texts(size):
    ends = names(5)
    yield "labels, one a line", filled((f"{name}:\n" for name in names(5)), size)
    yield "labels, all in one line", filled((f"{name}:" for name in names(5)), size)
    yield "names alike in 59 of 64", filled((f"{'x' * 59}{name}:\n" for name in ends), size)
    yield "lines of 256 bytes, comments", filled(itertools.repeat(f"; {'c' * 253}\n"), size)
    yield "lines of 256 bytes, blanks", filled(itertools.repeat(f"{' ' * 255}\n"), size)
    yield "one line of blanks", " " * size + "exit\n"
    yield "one word, no form", "x" * size + "\nexit\n"
    yield "empty lines", "\n" * size + "exit\n"
    yield "refused at the last line", filled((f"{name}:\n" for name in names(5)), size) + "no form\n"
    yield "named again at the last line", filled((f"{name}:\n" for name in names(5)), size) + "aaaaa: exit\n"


pathlib.Path(sys.argv[1], "start.asm").write_text("exit\n")
with open(pathlib.Path(sys.argv[1], "names"), "w") as listed:
    for index, (one, two) in enumerate(zip(texts(SIZES[0]), texts(SIZES[1]))):
        print(one[0], file=listed)
        pathlib.Path(sys.argv[1], f"{index}-1.asm").write_text(one[1])
        pathlib.Path(sys.argv[1], f"{index}-2.asm").write_text(two[1])
END_OF_TEXTS

# The first call also builds the command, if need be. A refusal's status is 1.
"$bpf" asm "$dir/start.asm" "$dir/out.img"
TIMEFORMAT='%3U %3S'
for ((round = 0; round < rounds; round++)); do
    for text in "$dir"/*.asm; do
        { time "$bpf" asm "$text" "$dir/out.img" >/dev/null || [ $? = 1 ]; } 2>>"${text%.asm}.times"
    done
done

python3 - "$dir" <<'END'
import pathlib
import statistics
import sys

folder = pathlib.Path(sys.argv[1])


def seconds(name):
    lines = (folder / f"{name}.times").read_text().splitlines()
    return statistics.median(sum(float(word) for word in line.split()) for line in lines)


start = seconds("start")
print("processor time, medians, less that of a text of one line")
print(f"{'':32}{'4 MB':>8}{'8 MB':>8}{'ratio':>8}{'bytes/second':>16}")
for index, name in enumerate((folder / "names").read_text().splitlines()):
    once, twice = (seconds(f"{index}-{size}") - start for size in (1, 2))
    size = (folder / f"{index}-2.asm").stat().st_size
    print(f"{name:32}{once:8.3f}{twice:8.3f}{twice / max(once, 1e-9):8.2f}{size / max(twice, 1e-9):16,.0f}")
END

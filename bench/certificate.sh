#!/usr/bin/env bash
# Times the reading of a certificate of 65,536 labels, in `bpf check`, against `wc -l` of the same file.
# Usage: bench/certificate.sh [ROUNDS], 5 if not said. BPF names another command than ./bpf.
set -eu
rounds=${1:-5}
. "$(dirname "${BASH_SOURCE[0]}")/common.sh"

# The same certificate, and the same with a line behind its end, so that it is read whole and then refused.
python3 - "$dir" <<'END'
import pathlib
import sys

labels = "".join(f"at {slot} 2 +2*r6\nr0 *\nr6 u1..10\ns1 b15\n" for slot in range(65_536))
text = "bpfcert 1 0 23\nfn 0 1 *\n" + labels + "end\n"
pathlib.Path(sys.argv[1], "whole.cert").write_text(text)
pathlib.Path(sys.argv[1], "refused.cert").write_text(text + "x")
pathlib.Path(sys.argv[1], "start.cert").write_text("x")
pathlib.Path(sys.argv[1], "exit.img").write_bytes(bytes.fromhex("95 00 00 00 00 00 00 00"))
END
[ "$("$bpf" check "$dir/exit.img" "$dir/refused.cert")" = "no K1 at line $(($(wc -l <"$dir/whole.cert") + 1))" ]

TIMEFORMAT='%3U %3S'
for ((round = 0; round < rounds; round++)); do
    { time "$bpf" check "$dir/exit.img" "$dir/start.cert" >/dev/null || true; } 2>>"$dir/start.times"
    { time "$bpf" check "$dir/exit.img" "$dir/refused.cert" >/dev/null || true; } 2>>"$dir/read.times"
    { time wc -l "$dir/whole.cert" >/dev/null; } 2>>"$dir/wc.times"
done

python3 - "$dir" <<'END'
import pathlib
import statistics
import sys

folder = pathlib.Path(sys.argv[1])


def seconds(name):
    """The median of the seconds of processor time of one run."""
    return statistics.median(sum(float(word) for word in line.split()) for line in (folder / f"{name}.times").read_text().splitlines())


count = (folder / "whole.cert").stat().st_size
read, words = seconds("read") - seconds("start"), seconds("wc")
print(f"{count:,} bytes, 65,536 labels; seconds of processor time, medians")
print(f"bpf reads  {read:6.3f} s {count / read:14,.0f} bytes/second")
print(f"wc -l      {words:6.3f} s" + (f" {count / words:14,.0f} bytes/second; bpf takes {read / words:.0f} times its time" if words > 0 else ""))
END

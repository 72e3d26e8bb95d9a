#!/usr/bin/env bash
# Times a small filter (bench/port.asm) through the library for hosts beside the same filter in C, by hand and by `bpf to-c`: calls a second, by the
# least processor time of rounds in turn. Usage: bench/host.sh [RUNS [ROUNDS]], 100000 and 15 if not said.
set -eu
runs=${1:-100000} rounds=${2:-15}
root=$(cd "$(dirname "${BASH_SOURCE[0]}")/.." && pwd)
dir=$(mktemp -d)
trap 'rm -rf "$dir"' EXIT
"$root/install" "$dir" >/dev/null
"$dir/bin/bpf" to-c "$root/bench/port.img" "$root/bench/port.cert" "$dir/port.c" --name port
"${CC:-cc}" -O2 -I"$dir/include" -I"$dir" -DTEXT='"port.c"' "$root/bench/host.c" -o "$dir/host" -L"$dir/lib" -lbpf_host
for ((round = 0; round < rounds; round++)); do
    "$dir/host" "$root/bench/port.img" "$root/bench/port.cert" "$runs"
done >"$dir/times"
python3 - "$dir/times" <<'END'
import collections, pathlib, sys
rates = collections.defaultdict(list)
for line in pathlib.Path(sys.argv[1]).read_text().splitlines():
    name, runs, seconds = line.split()
    rates[name].append(int(runs) / float(seconds))
native = max(rates['native'])
print('a filter of 16 instructions, all done; calls a second, processor time, the best round')
for name, found in rates.items():
    rate = max(found)
    print(f'{name:16} {rate:14,.0f}   {1e9 / rate:9,.1f} ns   {native / rate:7.1f} times the native filter')
END

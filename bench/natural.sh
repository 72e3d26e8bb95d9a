#!/usr/bin/env bash
# Times the programs of tests/natural, hardened and certified, on their contexts: through the library, as C of `bpf to-c`, and natively. A call's
# nanoseconds of processor time, the least of rounds in turn. It wants a clang that makes BPF, which BPF_CC names.
# Usage: bench/natural.sh [RUNS [ROUNDS]], 200 and 5 if not said. BPF names another command than ./bpf, LIBRARY a folder with libbpf_host.a.
set -eu
runs=${1:-200} rounds=${2:-5}
. "$(dirname "${BASH_SOURCE[0]}")/common.sh"
library=${LIBRARY:-$root/prebuilt}
flags="-O2 -fwrapv -fno-strict-aliasing -w"
python3 - "$root" "$bpf" "$dir" <<'END_PYTHON'
import pathlib, re, shutil, sys
root, bpf, room = sys.argv[1:]
sys.path.insert(0, f"{root}/tests")
sys.argv[1:] = [bpf]
import natural
for source in sorted(natural.SOURCES.glob("*.c")):
    size, image = int(re.search(r"context (\d+)", source.read_text())[1]), pathlib.Path(room, source.stem)
    if natural.ran(natural.ROOT / "examples/c/bpf-cc", source, image, "-w").returncode != 0:
        continue
    got = natural.certified(image, size, pathlib.Path(room))
    if got is not None:
        shutil.copy(got[0], f"{image}.img")
        shutil.copy(got[1], f"{image}.cert")
        pathlib.Path(f"{image}.contexts").write_bytes(b"".join(bytes.fromhex(line) for line in natural.contexts(source.stem, size)))
        print(source.stem, size, file=open(f"{room}/list", "a"))
END_PYTHON
while read -r name size; do
    "$bpf" to-c "$dir/$name.img" "$dir/$name.cert" "$dir/$name.c" --name filter
    "${CC:-cc}" $flags -c -o "$dir/$name.o" "$root/tests/natural/$name.c"
    "${CC:-cc}" $flags -I"$root/include" -I"$dir" -DTEXT="\"$name.c\"" "$root/bench/natural.c" "$dir/$name.o" -o "$dir/$name.host" -L"$library" -lbpf_host
done <"$dir/list"
for ((round = 0; round < rounds; round++)); do
    while read -r name size; do
        "$dir/$name.host" "$dir/$name.img" "$dir/$name.cert" "$dir/$name.contexts" "$size" "$runs" | sed "s/^/$name /"
    done <"$dir/list"
done >"$dir/times"
python3 - "$dir/times" <<'END_PYTHON'
import collections, pathlib, statistics, sys
ways = ("native", "to-c", "bpf_run_loaded")
found = collections.defaultdict(list)
for line in pathlib.Path(sys.argv[1]).read_text().splitlines():
    name, way, calls, seconds = line.split()
    found[name, way].append(float(seconds) * 1e9 / int(calls))
least = {key: min(times) for key, times in found.items()}
names = list(dict.fromkeys(name for name, _ in least))
print(f"{'ns a call':12}" + "".join(f"{way:>16}" for way in ways) + f"{'to-c over it':>16}")
for name in names:
    print(f"{name:12}" + "".join(f"{least[name, way]:16.0f}" for way in ways) + f"{least[name, 'bpf_run_loaded'] / least[name, 'to-c']:16.1f}")
over = {way: statistics.median(least[name, way] / least[name, 'native'] for name in names) for way in ways}
print(f"{'median':12}" + "".join(f"{over[way]:16.2f}" for way in ways) + "  times the native program's")
END_PYTHON

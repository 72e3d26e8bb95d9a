#!/usr/bin/env bash
# Times `bpf run` and `bpf run-checked` on four loops (countdown, arithmetic, memory, calls) beside two C programs, built with
# cc -O2: interpreter.c, a plain switch interpreter that tests nothing, and model.c, one with the exact machine's tests.
# Usage: bench/run.sh [ROUNDS], 5 if not said. BPF names another command than ./bpf.
set -eu
rounds=${1:-5}
. "$(dirname "${BASH_SOURCE[0]}")/common.sh"
cc -O2 -o "$dir/c" "$root/bench/interpreter.c"
cc -O2 -o "$dir/model" "$root/bench/model.c"
python3 - "$dir" <<'END_PYTHON'
import pathlib, struct, sys
def slot(opcode, dst=0, src=0, off=0, imm=0):
    return struct.pack("<BBhi", opcode, dst | src << 4, off, imm)
# r6 = TURNS; the body; r6 += -1; if r6 != 0 goto the body; exit
def loop(turns, before, body, after=()):
    return [slot(0xb7, 6, imm=turns), *before, *body, slot(0x07, 6, imm=-1), slot(0x55, 6, off=-len(body) - 2), slot(0x95), *after]
start = [slot(0xb7, 0, imm=1), slot(0xb7, 3, imm=7), slot(0xbf, 4, 3)]
spill = [slot(0xb7, 0, imm=1), slot(0x7b, 10, 0, -8), slot(0x7b, 10, 0, -16), slot(0x7b, 10, 0, -24)]
loops = {
    "countdown": loop(20_000_000, [slot(0xb7, 0)], []),
    "arithmetic": loop(4_000_000, start, [slot(0x0f, 0, 3), slot(0x27, 0, imm=31), slot(0xaf, 0, 4), slot(0x77, 4, imm=3),
                                          slot(0x0f, 4, 0), slot(0x67, 3, imm=1), slot(0x57, 3, imm=65535), slot(0x1f, 4, 3)]),
    "memory": loop(4_000_000, spill, [slot(0x7b, 10, 0, -8), slot(0x79, 3, 10, -8), slot(0x73, 10, 3, -16), slot(0x71, 4, 10, -16),
                                      slot(0x63, 10, 4, -24), slot(0x61, 5, 10, -24), slot(0x0f, 0, 5), slot(0x7b, 10, 0, -16)]),
    "calls": loop(4_000_000, [slot(0xb7, 0)], [slot(0xbf, 1, 6), slot(0x85, src=1, imm=3)],
                  [slot(0xbf, 0, 1), slot(0x07, 0, imm=1), slot(0x95)]),
}
for name, slots in loops.items():
    pathlib.Path(sys.argv[1], name + ".img").write_bytes(b"".join(slots))
END_PYTHON
loops="countdown arithmetic memory calls"
for loop in $loops; do
    "$bpf" infer "$dir/$loop.img" 0 "$dir/$loop.cert" >/dev/null
    wanted=$("$dir/c" "$dir/$loop.img" 4294967295)
    [ "$("$bpf" run "$dir/$loop.img" none --steps 4294967295)" = "$wanted" ]
    [ "$("$dir/model" "$dir/$loop.img" none 4294967295)" = "$wanted" ]
    [ "$("$bpf" run-checked "$dir/$loop.img" "$dir/$loop.cert" none)" = "${wanted%% steps*}" ]
    echo "$loop ${wanted##*steps }" >>"$dir/steps"
done

TIMEFORMAT='%3U'
for ((round = 0; round < rounds; round++)); do
    for loop in $loops; do
        { time "$dir/c" "$dir/$loop.img" 4294967295 >/dev/null; } 2>>"$dir/$loop.interpreter"
        { time "$dir/model" "$dir/$loop.img" none 4294967295 >/dev/null; } 2>>"$dir/$loop.model"
        { time "$bpf" run "$dir/$loop.img" none --steps 4294967295 >/dev/null; } 2>>"$dir/$loop.run"
        { time "$bpf" run-checked "$dir/$loop.img" "$dir/$loop.cert" none >/dev/null; } 2>>"$dir/$loop.run-checked"
    done
done

python3 - "$dir" <<'END_PYTHON'
import pathlib, statistics, sys
folder = pathlib.Path(sys.argv[1])
of = lambda loop, name: statistics.median(float(t) for t in (folder / f"{loop}.{name}").read_text().split())
print("million steps a second of processor time, medians, and the speed over that of interpreter.c")
print(f"{'':12}{'interpreter.c':>14}{'model.c':>16}{'bpf run':>16}{'run-checked':>16}{'run over model.c':>18}")
for line in (folder / "steps").read_text().splitlines():
    loop, steps = line.split()
    times = {name: of(loop, name) for name in ("interpreter", "model", "run", "run-checked")}
    rates = [f"{int(steps) / times['interpreter'] / 1e6:14.0f}"]
    rates += [f"{int(steps) / times[name] / 1e6:10.0f} {times['interpreter'] / times[name]:5.2f}" for name in ("model", "run", "run-checked")]
    print(f"{loop:12}{''.join(rates)}{times['model'] / times['run']:18.2f}")
END_PYTHON

#!/usr/bin/env bash
# Times compilers of C at -O2 on what `bpf to-c` makes of programs of the greatest length: arithmetic, and branches over bytes of the context, with a sum
# of those that aren't taken and without. Each is also cut to a quarter, which shows whether the time grows with the length alone.
# Usage: bench/to_c.sh [COMPILER ..], gcc and clang if not said. BPF names another command than ./bpf.
set -eu
compilers=("$@")
[ "$#" -gt 0 ] || compilers=(gcc clang)
. "$(dirname "${BASH_SOURCE[0]}")/common.sh"
python3 - "$dir" <<'END_PYTHON'
import pathlib, struct, sys


def slot(opcode, dst=0, src=0, off=0, imm=0):
    return struct.pack("<BBhi", opcode, dst | src << 4, off, imm)


def write(name, slots, labels):
    pathlib.Path(sys.argv[1], f"{name}.img").write_bytes(b"".join(slots))
    lines = [f"bpfcert 2 64 64 {len(slots)}", "fn 0 1 *", f"at 0 {len(slots)}", "r1 ctx0..0", *labels, "end", ""]
    pathlib.Path(sys.argv[1], f"{name}.cert").write_text("\n".join(lines))


ZERO, EXIT = slot(0xB7), slot(0x95)
for part, most in (("", 65_536), ("-quarter", 16_384)):
    write(f"arithmetic{part}", [ZERO] + [slot(0x07 | (0x00, 0x20, 0xA0, 0x50)[i % 4], imm=i + 1) for i in range(most - 2)] + [EXIT], [])
    turns = (most - 2) // 3
    labels = [line for i in range(1, turns + 1) for line in (f"at {3 * i + 1} {3 * (turns - i) + 1}", "r0 *", "r1 ctx0..0")]
    tests = [[slot(0x71, 3, 1, i % 64), slot(0x15, 3, 0, 1, i % 256)] for i in range(turns)]
    write(f"branches{part}", [ZERO] + [one for test in tests for one in (*test, ZERO)] + [EXIT], labels)
    write(f"sums{part}", [ZERO] + [one for i, test in enumerate(tests) for one in (*test, slot(0x07, imm=i + 1))] + [EXIT], labels)
END_PYTHON
TIMEFORMAT='%U'
printf '%-12s %-20s %8s %8s\n' program compiler whole quarter
for name in arithmetic branches sums; do
    for part in "" -quarter; do
        "$bpf" to-c "$dir/$name$part.img" "$dir/$name$part.cert" "$dir/$name$part.c"
    done
    for compiler in "${compilers[@]}"; do
        whole=$({ time "$compiler" -std=c11 -O2 -c -o "$dir/whole.o" "$dir/$name.c"; } 2>&1)
        quarter=$({ time "$compiler" -std=c11 -O2 -c -o "$dir/quarter.o" "$dir/$name-quarter.c"; } 2>&1)
        printf '%-12s %-20s %8s %8s\n' "$name" "$compiler" "$whole" "$quarter"
    done
done

#!/usr/bin/env bash
# fuzz.sh SECONDS [SEED]: forces guards and counters on 10,000 programs and compares them with the old ones; converts 10,000 filters of classic
# BPF and compares them with the definition; then alters images, texts and certificates of examples/ and holds the command's answers to its word.
set -eu
root=$(cd "$(dirname "${BASH_SOURCE[0]}")/.." && pwd)
bpf=${BPF:-$root/bpf}
seed=${2:-$(date +%s)}
cases=$root/crates/bpf_tests/out/bpf_tests
if [ ! -x "$cases" ] && [ -n "${UNPROVED-}" ]; then
    echo "fuzz: guards by force and converted filters are left out: crates/bpf_tests isn't built"
else
    [ -x "$cases" ] || (cd "$root/crates/bpf_tests" && rt run </dev/null) >/dev/null
    python3 "$root/tests/forced.py" "$bpf" "$cases" 10000 "$seed"
    python3 "$root/tests/classic.py" --program "$cases" 10000 "$seed"
fi
exec python3 "$root/tests/fuzz.py" "$bpf" "$root/examples" "${1:?seconds}" "$seed"

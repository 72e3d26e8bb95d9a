#!/usr/bin/env bash
# failures.sh: for every command, refuses each growth of memory in turn, fails each open, read and write in turn, which must be told, and
# shortens each; shows that runs and checks take no memory; refuses the growths of calls that no command makes; fails standard output
# behind each byte, and standard error; and looks at what a search shows on a terminal. Prints what was tried; fails on any wrong
# answer.
set -eu
root=$(cd "$(dirname "${BASH_SOURCE[0]}")/.." && pwd)
"$root/bpf" groups "$root/examples/smallest.img" >/dev/null
dir=$(mktemp -d)
trap 'rm -rf "$dir"' EXIT
"${CC:-cc}" -O2 -Wall -Wextra -shared -fPIC -o "$dir/refuse.so" "$root/tests/refuse.c" -ldl
calls="$root/crates/bpf_tests/out/bpf_tests"
# Where nothing is proved, and it isn't there, no call is made that no command makes alone.
if [ ! -x "$calls" ] && [ -n "${UNPROVED-}" ]; then
    echo "failures: the calls of crates/bpf_tests are left out: it isn't built"
    calls=
fi
[ -z "$calls" ] || [ -x "$calls" ] || (cd "$root/crates/bpf_tests" && rt run </dev/null) >/dev/null
for script in failures streams; do
    python3 "$root/tests/$script.py" "${BPF:-$root/crates/bpf/out/bpf}" "$root/examples" "$dir/refuse.so" "$calls"
done

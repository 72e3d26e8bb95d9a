#!/usr/bin/env bash
# library.sh [SUM]: proves and builds the static library for hosts over the libraries that `rt ci` has just proved and left. `rt lib`, which
# ./build calls, takes nothing that `rt ci` leaves, and would prove each of them again. Then it notes of which sources the library is, and the command
# that `rt ci` left. SUM is that of the sources before `rt ci` began, as `library.sh --sum` prints it; where it isn't given, no source may be younger than its
# crate's out/, which `rt ci` makes anew.
set -euo pipefail
root=$(cd "$(dirname "${BASH_SOURCE[0]}")/.." && pwd)
. "$root/scripts/built.sh"
if [ "${1-}" = --sum ]; then
    sum_of bpf bpf_host
    exit 0
fi
wants_kit "to build,"
name=bpf_host
changed="the sources were changed since rt ci began: rt ci again"
if [ -n "${1-}" ]; then
    [ "$1" = "$(sum_of bpf bpf_host)" ] || fails "$changed"
else
    crates_of bpf bpf_host
    for crate in "${crates[@]}"; do
        [ "$crate" != "$root/crates/$name" ] && [ -d "$crate/out" ] || continue
        # The time of the folder's birth, and that of a source's last change, which no program can set.
        born=$(stat -c %.9W "$crate/out")
        [[ "$born" =~ ^[1-9][0-9]*\.[0-9]+$ ]] || fails "this system doesn't tell when a folder was made: give the sum of the sources before rt ci"
        from=("$root/crates.txt" "$root/HANDLES" "$crate/src")
        [ ! -d "$crate/specs" ] || from+=("$crate/specs")
        younger=$(find "${from[@]}" -newerct "@$born" -print -quit)
        [ -z "$younger" ] || fails "$changed; $younger is younger than ${crate#"$root"/}/out"
    done
fi
[ -f "$root/$built_command" ] || fails "rt ci left no command, so it didn't pass"
before=$(sum_of bpf bpf_host)
words=(--crate-type staticlib --antt-project "$kit/rattle/logic/antt-project.json" --logic-built "$kit/logic_built")
words+=(--toolchain "$kit/toolchain" -L "dependency=$kit/rlibs" --extern "std=$kit/rlibs/std.rlib" --links "$name=")
for library in $(sed -n "s/^$name staticlib://p" "$root/crates.txt"); do
    case $library in
    bpf_*) built=$root/crates/$library/out/rlib ;;
    *) built=$kit/rlibs ;;
    esac
    words+=(--extern "$library=$built/$library.rlib")
done
for built in "$root"/crates/*/out/rlib; do
    words+=(-L "dependency=$built")
done
cd "$root/crates/$name"
mkdir -p out
"$kit/bin/rattle" build --crate-name "$name" src/lib.rt "${words[@]}" --jobs "$(nproc)" -o "out/lib$name.a" 2>&1 | tail -n 1
"$root/scripts/archive.sh"
[ "$before" = "$(sum_of bpf bpf_host)" ] || fails "$changed"
notes "$root/$built_command" bpf
notes "$root/$built_library" "$name"

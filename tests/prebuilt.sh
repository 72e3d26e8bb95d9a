#!/usr/bin/env bash
# prebuilt.sh: holds prebuilt/ to what the proofs made of this tree and left in crates/*/out: its SOURCES is of this kit and of these sources, and both
# files are the same byte for byte. Nothing that is built is tracked elsewhere. Where there is no prebuilt/, it says so.
# prebuilt.sh --renew: makes prebuilt/ of what the proofs made.
set -euo pipefail
root=$(cd "$(dirname "${BASH_SOURCE[0]}")/.." && pwd)
. "$root/scripts/built.sh"
renew='./build && tests/prebuilt.sh --renew makes it anew'
case ${1:-} in
--renew | '') ;;
*) fails "usage: tests/prebuilt.sh [--renew]" ;;
esac

# A file that came with the repository would stand where ./bpf and ./install look for what was built here.
if [ -e "$root/.git" ]; then
    tracked=$(git -C "$root" ls-files -- ':(glob)crates/*/out' ':(glob)crates/*/out/**' ':(glob)**/.compared*') || fails "git doesn't list the files of this repository"
    [ -z "$tracked" ] || fails "no proof made these tracked files, and ./bpf takes such for what was built or compared here: git rm --cached ${tracked//$'\n'/ }"
fi
if [ "${1:-}" != --renew ] && [ ! -e "$root/prebuilt" ]; then
    echo "prebuilt: there is no prebuilt/, so nothing was compared"
    exit 0
fi
wants_kit "to compare,"
is_of "$root/$built_command" bpf && is_of "$root/$built_library" bpf_host || fails "nothing is built of these sources: ./build"
made=$(mktemp -d)
trap 'rm -rf "$made"' EXIT
kit_tool llvm-strip --strip-all -o "$made/bpf" "$root/$built_command"
cp "$root/$built_library" "$made"
(cd "$made" && rt version && echo "$(sum_of bpf bpf_host)  the sources" && sha256sum bpf libbpf_host.a) >"$made/SOURCES"

if [ "${1:-}" = --renew ]; then
    mkdir -p "$root/prebuilt"
    install -m 755 "$made/bpf" "$root/prebuilt"
    install -m 644 "$made/libbpf_host.a" "$made/SOURCES" "$root/prebuilt"
    cat "$made/SOURCES"
    du -bc "$root"/prebuilt/* | tail -n 1
    exit 0
fi
kept=$root/prebuilt
for file in '' /SOURCES /bpf /libbpf_host.a; do
    [ -e "$kept$file" ] && [ ! -L "$kept$file" ] || fails "prebuilt$file isn't there, or it is a link: $renew"
done
# Another kit may make other bytes of the same sources, so that nothing would be known of these.
version=$(sed -n 1p "$kept/SOURCES")
[ "$version" = "$(rt version)" ] || fails "prebuilt/ was made with $version, and here is $(rt version): $renew"
[ "$(sed -n 2p "$kept/SOURCES")" = "$(sed -n 2p "$made/SOURCES")" ] || fails "prebuilt/ isn't of these sources: $renew"
for file in bpf libbpf_host.a; do
    cmp "$kept/$file" "$made/$file" || fails "prebuilt/$file isn't what the proofs made: $renew"
done
cmp -s "$kept/SOURCES" "$made/SOURCES" || fails "prebuilt/SOURCES has other sums than both files: $renew"
[ -x "$kept/bpf" ] || fails "prebuilt/bpf can't be run: $renew"
echo "prebuilt: both files are what the proofs made"

#!/usr/bin/env bash
# Makes the images and certificates of this folder again, from the C sources, by bpf-cc (BPF_CC names the compiler):
#   make.sh [BPF]            compares them with those that are kept here
#   make.sh [BPF] --keep     puts them in their place
# Another version of the compiler than the one that VERSION names may make other images, which is told and is no failure. A filter that isn't
# built or not certified is.
set -eu
here=$(cd "$(dirname "$0")" && pwd)
bpf=$(realpath "${1:-$here/../../bpf}")
keep=${2:-}
made=$(mktemp -d)
trap 'rm -rf "$made"' EXIT
cd "$here"
version=$("${BPF_CC:-clang}" --version | head -n 1)
different=()
failed=0
for source in *.c; do
    name=${source%.c}
    image=$made/$name.img
    certificate=$made/$name.cert
    if ! ./bpf-cc "$source" "$image" -Werror || ! said=$("$bpf" infer --deep "$image" 128 "$certificate") ||
        ! said=$("$bpf" check "$image" "$certificate"); then
        echo "$source: ${said:-not built}" >&2
        failed=1
        continue
    fi
    echo "$source: $said"
    if [ "$keep" = --keep ]; then
        cp "$image" "$certificate" .
    else
        cmp -s "$name.img" "$image" && cmp -s "$name.cert" "$certificate" || different+=("$name")
    fi
done
if [ "$keep" = --keep ]; then
    echo "$version" >VERSION
elif [ ${#different[@]} -gt 0 ]; then
    echo "${different[*]}: other bytes by $version than those kept here, by $(cat VERSION)"
    [ "$version" != "$(cat VERSION)" ] || failed=1
fi
exit "$failed"

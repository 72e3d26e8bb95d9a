#!/usr/bin/env bash
# archive.sh: makes of the static library that the kit builds, crates/bpf_host/out/libbpf_host.a, the one for hosts, out/host/libbpf_host.a: one
# object, with the kit's memory in it (rattle_alloc and its like over malloc, realloc and free), and no name but bpf.h's for others to
# meet. The tools are the kit's own, so that it is the same byte for byte on every machine.
set -euo pipefail
root=$(cd "$(dirname "${BASH_SOURCE[0]}")/.." && pwd)
. "$root/scripts/built.sh"
wants_kit "to make the library,"
made=$(mktemp -d)
trap 'rm -rf "$made"' EXIT
cd "$root/crates/bpf_host/out"
kit_tool ld.lld -r -o "$made/whole.o" --whole-archive libbpf_host.a "$kit/c/liblibc_c.a"
kit_tool llvm-objcopy --wildcard --keep-global-symbol='bpf_*' --strip-unneeded --remove-section .llvm_addrsig "$made/whole.o" "$made/bpf_host.o"
mkdir -p host
rm -f host/libbpf_host.a
kit_tool llvm-ar rcsD host/libbpf_host.a "$made/bpf_host.o"

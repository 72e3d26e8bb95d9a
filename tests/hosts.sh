#!/usr/bin/env bash
# hosts.sh: installs into a folder of its own, builds hosts against what stands there, the C ones with the sanitizers of cc, and holds
# their answers to the command's: a table with every kind of refusal, calls that no caller should make, memory
# that is refused, an allocator of the host's own, limits of memory, eight threads, and a million runs. So are the wrappers for C++ and, where cargo is there, for Rust; threads have the stacks that
# docs/HOSTS.md says are enough; what it hardens is what the command hardens; and the packets that pass a filter are those that pass tcpdump. Then the commands that the documents show are run with what was installed.
set -eu
root=$(cd "$(dirname "${BASH_SOURCE[0]}")/.." && pwd)
dir=$(mktemp -d)
trap 'rm -rf "$dir"' EXIT
"$root/install" "$dir" >/dev/null
# The installed bpf-cc finds the installed filter.h.
if command -v clang >/dev/null; then
    cp "$root/examples/c/rate.c" "$dir"
    "$dir/bin/bpf-cc" "$dir/rate.c" "$dir/rate.img"
fi
# What an installed host is built with.
if command -v pkg-config >/dev/null; then
    flags=$(PKG_CONFIG_PATH="$dir/lib/pkgconfig" pkg-config --cflags --libs bpf_host)
else
    flags="-I$dir/include -L$dir/lib -lbpf_host"
fi
build=("${CC:-cc}" -g -O1 -Wall -Wextra -Wpedantic -Werror -fsanitize=address,undefined -fno-sanitize-recover=all)
"${build[@]}" -std=gnu11 "$root/tests/hosts.c" -o "$dir/hosts" -Wl,--wrap=malloc,--wrap=realloc $flags -lpthread
"${build[@]}" -std=c11 "$root/examples/hosts/filter.c" -o "$dir/filter_c" $flags
"${build[@]}" -std=c11 "$root/examples/hosts/capture.c" -o "$dir/capture" $flags
if echo 'int main(void) { return !pcap_lib_version(); }' | "${CC:-cc}" -include pcap/pcap.h -x c - -o "$dir/has_pcap" -lpcap 2>/dev/null; then
    "${build[@]}" -std=c11 -DWITH_PCAP "$root/examples/hosts/capture.c" -o "$dir/capture_pcap" $flags -lpcap
fi
"${CXX:-c++}" -x c++ -std=c++11 -Wall -Wextra -Werror -fsyntax-only "$dir/include/bpf.h"
"${CXX:-c++}" -std=c++11 -g -O1 -Wall -Wextra -Wpedantic -Werror -fsanitize=address,undefined "$root/tests/wrapper.cc" -o "$dir/wrapper" $flags
"$dir/wrapper" "$root/examples/c/port.img" "$root/examples/c/port.cert"
# Stacks are those of a host without sanitizers.
"${CC:-cc}" -std=gnu11 -O2 -Wall -Wextra -Wpedantic -Werror "$root/tests/stack.c" -o "$dir/stack" $flags -lpthread
# Calls that take memory, with an allocator of the host's own, linked in and preloaded.
plain=("${CC:-cc}" -std=gnu11 -g -O1 -Wall -Wextra -Wpedantic -Werror)
"${plain[@]}" -fno-builtin -c "$root/tests/allocator.c" -o "$dir/allocator.o"
"${plain[@]}" -fno-builtin -shared -fPIC "$root/tests/allocator.c" -o "$dir/allocator.so"
"${plain[@]}" "$root/tests/memory.c" -o "$dir/memory" $flags
"${plain[@]}" "$root/tests/memory.c" "$dir/allocator.o" -o "$dir/memory_own" $flags
# What the library hardens is what the command hardens, with --unproved too, and so is its certificate; what it refuses, the command refuses.
"${build[@]}" -std=c11 "$root/tests/hardened.c" -o "$dir/hardened" $flags
"$dir/hardened" bad
hardens() {
    local image=$1 size=$2 padded=$3 unproved=$4 words=()
    ((padded == 0)) || words+=(--padded)
    ((unproved == 0)) || words+=(--unproved)
    "$dir/hardened" "$image" little "$size" "$padded" "$unproved" 0 "$dir/new.img" "$dir/new.cert" >"$dir/said"
    "$dir/bin/bpf" harden "${words[@]}" "$image" "$size" "$dir/their.img"
    "$dir/bin/bpf" infer --deep "$dir/their.img" "$size" "$dir/their.cert"
    cmp "$dir/new.img" "$dir/their.img" && cmp "$dir/new.cert" "$dir/their.cert"
    [[ $("$dir/bin/bpf" check "$dir/new.img" "$dir/new.cert") == "yes length $size $(cat "$dir/said")" ]]
}
"$dir/bin/bpf" asm "$root/examples/nth.asm" "$dir/nth.img"
for unproved in 0 1; do
    hardens "$dir/nth.img" 16 0 "$unproved"
    hardens "$root/examples/first-byte.img" 64 0 "$unproved"
    hardens "$root/examples/first-byte.img" 64 1 "$unproved"
done
# A pointer that is compared with a number: nobody shows that the meaning is kept.
printf 'r0 = 0\nr3 = *(u8 *)(r1 + 0)\nr3 += r1\nif r3 == 5 goto +1\nr0 = *(u8 *)(r3 + 0)\nexit\n' >"$dir/null.asm"
"$dir/bin/bpf" asm "$dir/null.asm" "$dir/null.img"
! said=$("$dir/hardened" "$dir/null.img" little 16 0 0 0 "$dir/new.img" "$dir/new.cert")
[[ $said == $("$dir/bin/bpf" harden "$dir/null.img" 16 "$dir/their.img") && $said == "no H13 at slot 3" ]]
hardens "$dir/null.img" 16 0 1
pairs=()
for image in "$root"/examples/c/*.img; do
    pairs+=("$image" "${image%.img}.cert")
done
"$dir/stack" "${pairs[@]}"
if command -v cargo >/dev/null; then
    mkdir "$dir/crate"
    cp -r "$root/examples" "$dir/crate"
    (cd "$dir/crate/examples/hosts/bpf-host" && BPF_HOST_LIB=$dir/lib CARGO_TARGET_DIR=$dir/crate/target cargo test --offline --quiet >"$dir/cargo" 2>&1) ||
        { cat "$dir/cargo" >&2; exit 1; }
fi
rustc --edition 2024 -O -D warnings -L "$dir/lib" "$root/examples/hosts/filter.rs" -o "$dir/filter_rs"
# A library of another version is told by both wrappers, and nothing else of it is called.
mkdir "$dir/other"
for call in $(grep -oE '^[a-z0-9_]+ bpf_host_[a-z_]+' "$root/include/bpf.h" | cut -d ' ' -f 2); do
    [ "$call" = bpf_host_version ] || echo "void $call(void) { __builtin_trap(); }"
done >"$dir/other/other.c"
echo 'unsigned bpf_host_version(void) { return 199; }' >>"$dir/other/other.c"
"${CC:-cc}" -c "$dir/other/other.c" -o "$dir/other/other.o"
ar rcs "$dir/other/libbpf_host.a" "$dir/other/other.o"
rustc --edition 2024 -O -D warnings -L "$dir/other" "$root/examples/hosts/filter.rs" -o "$dir/other/filter_rs"
"${CXX:-c++}" -std=c++11 "-I$dir/include" "$root/tests/wrapper.cc" -o "$dir/other/wrapper" "$dir/other/libbpf_host.a"
port=("$root/examples/c/port.img" "$root/examples/c/port.cert")
"$dir/filter_c" --make "$dir/other/frames.pcap"
said=$("$dir/other/filter_rs" "${port[@]}" "$dir/other/frames.pcap" 2>&1) || true
[[ "$said" == *"libbpf_host.a is of version 199, and this crate of "* ]] || { echo "hosts: filter.rs says of a library of another version: $said" >&2; exit 1; }
said=$("$dir/other/wrapper" "${port[@]}" 2>&1) || true
[[ "$said" == *"libbpf_host.a is of another version than bpf.h"* ]] || { echo "hosts: bpf.hpp says of a library of another version: $said" >&2; exit 1; }
"$root/tests/version.py" "$dir"
python3 "$root/tests/hosts.py" "$dir/bin/bpf" "$root/examples" "$dir"
python3 "$root/tests/capture.py" "$dir"
cp "$dir/filter_c" "$dir/filter"
"$root/tests/documents.py" "$dir"

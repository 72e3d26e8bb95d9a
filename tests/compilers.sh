#!/usr/bin/env bash
# compilers.sh [BPF]: builds each filter of examples/c by each compiler for BPF that is there, clang of any version and bpf-gcc, has it
# certified, and runs it on packets (filters.py). By the compiler that VERSION names it must be the image that is kept. So are the programs of
# tests/natural, which nobody wrote for the checker (natural.py). And bpf-cc is held to its words about sources that make no image. Nothing is
# installed: where no compiler is there, that is all it says.
set -u
root=$(cd "$(dirname "${BASH_SOURCE[0]}")/.." && pwd)
bpf=$(realpath "${1:-$root/crates/bpf/out/bpf}")
build=$root/examples/c/bpf-cc
dir=$(mktemp -d)
trap 'rm -rf "$dir"' EXIT
failed=0

fails() {
    echo "compilers: $1" >&2
    failed=1
}

# certifies SOURCE IMAGE: whether a filter is built, and gets a certificate and a yes; what was said last stands in $dir/said.
certifies() {
    "$build" "$1" "$2.img" -Werror >"$dir/said" 2>&1 &&
        "$bpf" infer --deep "$2.img" 128 "$2.cert" >"$dir/said" && "$bpf" check "$2.img" "$2.cert" >"$dir/said"
}

# tries COMPILER: each filter of examples/c.
tries() {
    local source image version before=$failed
    version=$("$1" --version | head -n 1)
    mkdir "$dir/$1"
    for source in "$root"/examples/c/*.c; do
        image=$dir/$1/$(basename "$source" .c)
        if certifies "$source" "$image"; then
            [ "$version" != "$(cat "$root/examples/c/VERSION")" ] || cmp -s "$image.img" "${source%.c}.img" ||
                fails "$(basename "$image").img isn't what $version makes of its source: examples/c/make.sh BPF --keep makes it anew"
            continue
        fi
        fails "$(basename "$source") by $version: $(cat "$dir/said")"
        [ ! -f "$image.img" ] || "$bpf" explain "$image.img" --infer 128 --deep >&2
    done
    [ "$failed" != "$before" ] || "$root/tests/filters.py" "$bpf" "$dir/$1" >"$dir/said" || fails "the filters by $1: $(cat "$dir/said")"
    BPF_CC=$1 "$root/tests/natural.py" "$bpf" || fails "the natural programs by $1"
}

# says WORDS [FLAG..]: what bpf-cc must say of the source on standard input, which makes no image; with no words it makes one.
says() {
    local words=$1
    shift
    { echo '#include "filter.h"' && echo '#define SEC(name) __attribute__((section(name), used))' && cat; } >"$dir/case.c"
    rm -f "$dir/case.img"
    if "$build" "$@" "$dir/case.c" "$dir/case.img" >"$dir/said" 2>&1; then
        [ -z "$words" ] && [ -s "$dir/case.img" ] || fails "$BPF_CC: built, and not refused by: $words"
    else
        [ -n "$words" ] && grep -qF -- "$words" "$dir/said" && [ ! -e "$dir/case.img" ] || fails "$BPF_CC: in place of \"$words\": $(cat "$dir/said")"
    fi
}

# Sources that make no image, and those that do.
refusals() {
    says "2 functions that aren't static, all, filter: --entry NAME" <<'C'
u64 all(const struct context *context, u64 size) { return 1; }
u64 filter(const struct context *context, u64 size) { return context->length > 14; }
C
    says "no function that isn't static" <<'C'
static u64 filter(const struct context *context, u64 size) { return 1; }
C
    says 'case.c:4: uses `primes`, 600 bytes, and the frame of `filter` has room for 512 of its 512' <<'C'
static const u32 primes[150] = { 2, 3, 5, 7, 11, 13, 17, 19, 23 };
u64 filter(const struct context *context, u64 size) { return primes[context->packet[0] & 127]; }
C
    says 'case.c:4: uses `names`, which holds addresses' <<'C'
static const char *const names[] = { "get", "put", "post", "patch", "head", "trace" };
u64 filter(const struct context *context, u64 size) { return names[context->packet[0] & 3][context->packet[1] & 1]; }
C
    says 'case.c:4: uses `seen`, a variable outside of functions' <<'C'
static volatile u64 seen;
u64 filter(const struct context *context, u64 size) { return ++seen; }
C
    says 'case.c:3: calls `fib`, from which it was called itself: write a loop' <<'C'
static __attribute__((noinline)) u64 fib(u64 n) { u64 low = n < 2 ? 1 : fib(n - 2); HIDE(low); return low ? low + fib(n - 1) : low; }
u64 filter(const struct context *context, u64 size) { return fib(context->packet[0] & 7); }
C
    says 'case.c:4: calls `strcmp`, which isn'"'"'t in' <<'C'
int strcmp(const char *, const char *);
u64 filter(const struct context *context, u64 size) { return strcmp((const char *)context->packet, (const char *)context->packet + 8); }
C
    says 'case.c:4: calls helper 5 of the kernel' <<'C'
static u64 (*const now)(void) = (void *)5;
u64 filter(const struct context *context, u64 size) { return now(); }
C
    says 'hands over more than five arguments' <<'C'
static __attribute__((noinline)) u64 six(u64 a, u64 b, u64 c, u64 d, u64 e, u64 f) { HIDE(a); return a + b * c + d * e + f; }
u64 filter(const struct context *c, u64 n) { return six(c->packet[0], c->packet[1], c->packet[2], c->packet[3], c->packet[4], c->packet[5]) + six(n, n, c->packet[9], n, n, n); }
C
    says 'needs more than the 512 bytes of a frame' <<'C'
u64 filter(const struct context *context, u64 size)
{
	volatile u64 counts[80];
	for (u64 i = 0; i < 80; i++) counts[i] = i;
	return counts[context->length & 63];
}
C
    says '' <<'C'
#include <stdbool.h>
#include <stddef.h>
#include <stdint.h>
uint64_t filter(const struct context *context, uint64_t size)
{
	uint32_t first;
	__builtin_memcpy(&first, context->packet, sizeof(first));
	bool is_long = context->length > 14;
	return first + is_long;
}
C
    [ ! -e /usr/include/linux/ip.h ] || says '' <<'C'
#include <linux/if_ether.h>
#include <linux/icmp.h>
#include <linux/ip.h>
#include <linux/ipv6.h>
#include <linux/tcp.h>
#include <linux/udp.h>
#include <string.h>
u64 filter(const struct context *context, u64 size) { return ((const struct iphdr *)context->packet)->ttl + (memcmp(context->packet, "GET ", 4) == 0); }
C
    says '' <<'C'
static const u8 kinds[8] = { 3, 1, 4, 1, 5, 9, 2, 6 };
__attribute__((noinline)) u64 kind(u64 i) { return kinds[i & 7] + memcmp("abcdefg", &i, i & 3); }
SEC("xdp") u64 filter(const struct context *context, u64 size) { return kind(context->packet[0]); }
C
    printf 'SEC("xdp") u64 one(const u8 *bytes, u64 size) { return 1; }\nSEC("tc") u64 two(const u8 *bytes, u64 size) { return 2; }\n' >"$dir/two"
    says "2 functions that aren't static" <"$dir/two"
    says '' --entry two <"$dir/two"
    cp "$dir/case.img" "$dir/entry.img"
    says '' --section tc <"$dir/two"
    cmp -s "$dir/entry.img" "$dir/case.img" || fails "$BPF_CC: --entry two and --section tc make other images"
    says 'has no function `three`' --entry three <"$dir/two"
    says '' <<'C'
SEC("xdp") u64 filter(const struct context *context, u64 size) { return context->length > 14; }
char _license[] SEC("license") = "GPL";
C
    cp "$dir/case.img" "$dir/xdp.img"
    says '' <<'C'
u64 filter(const struct context *context, u64 size) { return context->length > 14; }
C
    cmp -s "$dir/xdp.img" "$dir/case.img" || fails "$BPF_CC: SEC(\"xdp\") makes another image"
    grep -qx '0 case.c:3 u64 filter(const struct context \*context, u64 size) { return context->length > 14; }' "$dir/case.img.lines" ||
        fails "$BPF_CC: no line for slot 0: $(cat "$dir/case.img.lines")"
}

# compares COMPILER: memcmp of constant lengths with a table in the frame, and with the packet's own bytes, is certified and right.
compares() {
    cat >"$dir/case.c" <<'C'
#include "filter.h"
static const u8 line[24] = "GET /index.html HTTP/1.1";
u64 filter(const u8 *bytes, u64 size)
{
	return (memcmp(bytes, line, 24) == 0) | (memcmp(bytes, line, 16) < 0) << 1 | (memcmp(bytes, line, 6) > 0) << 2 | (memcmp(bytes, bytes + 24, 7) < 0) << 3;
}
C
    local front=474554202f middle=696e6465782e68746d6c rear=485454502f312e31
    printf '%s\n' "$front${middle}20${rear}4848484848484848" "$front${middle}00${rear}4848484848484848" "${front}ff${middle}${rear}4141414141414141" >"$dir/contexts"
    "$build" "$dir/case.c" "$dir/case.img" -Werror >"$dir/said" 2>&1 && "$bpf" certify "$dir/case.img" 32 "$dir/made.img" "$dir/made.cert" >"$dir/said" 2>&1 &&
        "$bpf" run-checked "$dir/made.img" "$dir/made.cert" --contexts "$dir/contexts" >"$dir/said" 2>&1
    [ "$(cat "$dir/said")" = "$(printf 'done %s\n' 9 10 4)" ] || fails "memcmp by $1: $(cat "$dir/said")"
}

# Each compiler that is there, once; bpf-cc's words by the first and the last of them.
mapfile -t found < <(compgen -c | grep -xE 'clang(-[0-9]+)?|bpf-gcc(-[0-9]+)?' | sort -u |
    while read -r name; do echo "$(realpath "$(command -v "$name")") $name"; done | sort -u -k 1,1 | cut -d ' ' -f 2 | sort -V)
tried=()
for compiler in ${found[@]+"${found[@]}"}; do
    export BPF_CC=$compiler
    if ! "$build" "$root/examples/c/rate.c" "$dir/rate.img" >"$dir/said" 2>&1; then
        echo "compilers: $compiler builds nothing here: $(tail -n 1 "$dir/said")"
        continue
    fi
    tries "$compiler"
    compares "$compiler"
    case $compiler in
    "${found[0]}" | "${found[-1]}") refusals ;;
    esac
    tried+=("$compiler $("$compiler" -dumpversion)")
done
if [ ${#tried[@]} -eq 0 ]; then
    echo "compilers: no compiler for BPF is here, so none was tried"
else
    echo "compilers: ${#tried[@]} tried, ${tried[*]}"
fi
exit "$failed"

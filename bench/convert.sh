#!/usr/bin/env bash
# Times what a host pays once for a filter of tcpdump: its conversion, and that with the judgement of bpf_load, in microseconds of processor time, the
# medians of rounds. It wants libpcap with its headers. Usage: bench/convert.sh [ROUNDS], 2000 if not said. LIBRARY names a folder with libbpf_host.a.
set -eu
rounds=${1:-2000}
. "$(dirname "${BASH_SOURCE[0]}")/common.sh"
library=${LIBRARY:-$root/prebuilt}
"${CC:-cc}" -O2 -Wall -Wextra -I"$root/include" "$root/bench/convert.c" -o "$dir/convert" -L"$library" -lbpf_host -lpcap
printf '%-44s %8s %8s %8s\n' expression classic convert both
while read -r expression; do
    IFS=$'\t' read -r classic alone both < <("$dir/convert" "$expression" 1522 "$rounds")
    printf '%-44s %8s %8s %8s\n' "$expression" "$classic" "$alone" "$both"
done <<'END'
ip
host 192.0.2.1
net 192.0.2.0/24
tcp port 80
tcp[tcpflags] == tcp-syn
vlan and tcp port 80
port 80 or port 53 or port 22 or port 25
tcp port 80 and ip[2:2] > 576
END

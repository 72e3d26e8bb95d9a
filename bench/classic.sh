#!/usr/bin/env bash
# Times converted filters beside libpcap's own bpf_filter(), on the same packets: nanoseconds a packet. It wants libpcap with its headers.
# Usage: bench/classic.sh [LEN], 1522 if not said. BPF names another command than ./bpf, LIBRARY a folder with libbpf_host.a.
set -eu
length=${1:-1522}
. "$(dirname "${BASH_SOURCE[0]}")/common.sh"
library=${LIBRARY:-$root/prebuilt}
"${CC:-cc}" -O2 -I"$root/include" "$root/bench/classic.c" -o "$dir/classic" -L"$library" -lbpf_host -lpcap
printf '%-44s %8s %6s %6s %8s %8s %8s\n' expression classic slots bound libpcap image copied
while read -r expression; do
    "$dir/classic" --ddd "$expression" >"$dir/filter.ddd"
    "$bpf" convert "$dir/filter.ddd" "$length" "$dir/filter.img" "$dir/filter.cert" >/dev/null
    "$dir/classic" "$expression" "$dir/filter.img" "$dir/filter.cert" "$length" >"$dir/found"
    IFS=$'\t' read -r classic slots bound libpcap image copied same <"$dir/found"
    printf '%-44s %8s %6s %6s %8s %8s %8s   %s\n' "$expression" "$classic" "$slots" "$bound" "$libpcap" "$image" "$copied" "$same"
done <<'END'
ip
host 192.0.2.1
net 192.0.2.0/24
tcp port 80
tcp[tcpflags] == tcp-syn
vlan and tcp port 80
port 80 or port 53 or port 22 or port 25
tcp port 80 and ip[2:2] > 576
END

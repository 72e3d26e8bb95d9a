#!/usr/bin/env python3
"""Filters of libpcap's expressions, converted: expressions.py BPF

Where libpcap is there: what tcpdump, or libpcap itself, compiles the examples of pcap-filter(7) to, and others of each kind that it names,
answers what libpcap's own bpf_filter() does, on frames of each protocol, cut and altered. The instructions in its listing are the lines of `tcpdump -d`.
"""
import os
import pathlib
import random
import shutil
import subprocess
import sys
import tempfile

from classic import converted, listed

HERE = pathlib.Path(__file__).resolve().parent

# ---- the examples of pcap-filter(7), with numbers in the place of names, and `gateway` as that page says it in other words

EXAMPLES = """
host 192.0.2.1
host 192.0.2.1 and (192.0.2.5 or 198.51.100.7)
ip host 192.0.2.1 and not 192.0.2.5
net 192.0.2.0/24
ip and not net 192.0.2.0/24
tcp[tcpflags] & (tcp-syn|tcp-fin) != 0 and not src and dst net 192.0.2.0/24
tcp[tcpflags] & (tcp-rst|tcp-ack) == (tcp-rst|tcp-ack)
tcp port 80 and (((ip[2:2] - ((ip[0]&0xf)<<2)) - ((tcp[12]&0xf0)>>2)) != 0)
ip[2:2] > 576
ether[0] & 1 = 0 and ip[16] >= 224
icmp[icmptype] != icmp-echo and icmp[icmptype] != icmp-echoreply
icmp6[icmp6type] != icmp6-echo and icmp6[icmp6type] != icmp6-echoreply
ether host 02:00:00:00:00:01 and not host 192.0.2.1 and (port 21 or 20)
ether host 02:00:00:00:00:01 and not host 192.0.2.1 and ip[2:2] > 576
src host 192.0.2.1
dst port 53
port 20
portrange 6000-6008
src or dst port 80
tcp src port 80
ip6 and udp
arp
rarp or arp host 192.0.2.1
ether src 02:00:00:00:00:01
ether broadcast
ether multicast
ip broadcast or ip multicast
ip6 multicast
vlan 300 and vlan 400 and tcp port 80
vlan and ip
mpls 100000 && mpls 1024 && host 192.0.2.1
pppoes 0x27 && host 192.0.2.1
geneve 0xb && ip proto 6
less 64
greater 128
len > 100 and len % 4 = 0
proto \\tcp and not port 22
icmp6
sctp portrange 1-99
ip[0] & 0xf != 5
ip[6:2] & 0x1fff = 0
ip[8] < 5
udp[4:2] - 8 > 100 and udp[8] * 3 = 9
""".strip().splitlines()
MACS = [bytes.fromhex(it) for it in ('020000000001', '020000000002', 'ffffffffffff', '01005e000001', '333300000001')]
HOSTS = [bytes(it) for it in ((192, 0, 2, 1), (192, 0, 2, 5), (198, 51, 100, 7), (224, 0, 0, 5), (255, 255, 255, 255))]
PORTS = [80, 53, 22, 20, 6005, 6081, 40000]


def short(*numbers):
    return b''.join(it.to_bytes(2, 'big') for it in numbers)


def transport(rng):
    """A protocol's number, and what stands behind an IP header."""
    rest = bytes(rng.randrange(256) for _ in range(rng.choice([0, 1, 9, 60])))
    ports = short(rng.choice(PORTS), rng.choice(PORTS))
    return rng.choice([
        (6, ports + bytes(8) + bytes([rng.choice([0x50, 0x80]), rng.choice([2, 0x10, 0x12, 0x14, 1])]) + bytes(6) + rest), (17, ports + short(8 + len(rest), 0) + rest),
        (1, bytes([rng.choice([0, 3, 8]), 0]) + bytes(6) + rest), (58, bytes([rng.choice([128, 135]), 0]) + bytes(6) + rest), (132, ports + bytes(8) + rest), (47, rest)])


def network(rng):
    """A type, and what stands behind it."""
    protocol, rest = transport(rng)
    if rng.random() < .3:
        return 0x86dd, b'\x60\0\0\0' + short(len(rest)) + bytes([protocol, 64]) + b'\xff\x02' + bytes(13) + b'\1' + b'\x20\x01' + bytes(13) + b'\2' + rest
    if rng.random() < .15:
        return rng.choice([0x806, 0x8035]), short(1, 0x800) + b'\6\4\0\1' + MACS[0] + rng.choice(HOSTS) + MACS[1] + rng.choice(HOSTS)
    words = rng.choice([5, 5, 6, 15])
    head = bytes([0x40 | words, 0]) + short(4 * words + len(rest), 7, rng.choice([0, 0, 0x4000, 100])) + bytes([rng.choice([1, 64]), protocol]) + short(0)
    return 0x800, head + rng.choice(HOSTS) + rng.choice(HOSTS) + bytes(4 * (words - 5)) + rest


def frame(rng):
    kind, rest = network(rng)
    if rng.random() < .2:
        for tag in rng.sample([300, 400], rng.choice([1, 2])):
            kind, rest = 0x8100, short(tag, kind) + rest
    elif rng.random() < .1:
        kind, rest = 0x8847, (100000 << 12).to_bytes(4, 'big') + (1024 << 12 | 0x100).to_bytes(4, 'big') + rest
    elif rng.random() < .1:
        kind, rest = 0x8864, b'\x11\0' + short(0x27, len(rest) + 2, 0x21) + rest
    return rng.choice(MACS) + rng.choice(MACS) + short(kind) + rest


def packets_for(rng):
    """Frames, some with other bytes, some cut, and anything."""
    for at in range(160):
        packet = bytearray(frame(rng))
        if at % 4 == 1:
            packet[rng.randrange(len(packet))] = rng.randrange(256)
        if at % 4 == 2:
            del packet[rng.randrange(len(packet)):]
        yield bytes(packet)
    for size in (0, 1, 13, 14, 100, 300):
        yield bytes(rng.randrange(256) for _ in range(size))


def examples(bpf, room):
    """Whether the examples answer what libpcap says, where it is there."""
    side = f'{room}/expressions'
    built = subprocess.run([os.environ.get('CC', 'cc'), '-O1', '-o', side, str(HERE / 'expressions.c'), '-lpcap'], capture_output=True, text=True)
    if built.returncode:
        print("classic: libpcap isn't there, so the examples of pcap-filter(7) weren't tried")
        return True
    tcpdump = shutil.which('tcpdump')
    pcap = subprocess.Popen([side], stdin=subprocess.PIPE, stdout=subprocess.PIPE, text=True)

    def asked(line):
        pcap.stdin.write(line + '\n')
        pcap.stdin.flush()
        return pcap.stdout.readline().strip()

    tried = runs = 0
    failed = []
    for expression in EXAMPLES:
        rng = random.Random(expression)
        if tcpdump:
            made = subprocess.run([tcpdump, '-ddd', '-y', 'EN10MB', expression], capture_output=True, text=True)
            text = made.stdout if made.returncode == 0 else ''
        else:
            said = asked(f'compile EN10MB {expression}')
            text = '' if said == 'no' else said.replace('/', '\n')
        if not text:
            continue
        tried += 1
        filter = [tuple(map(int, line.split())) for line in text.splitlines()[1:]]
        packets = list(packets_for(rng))
        wanted = asked(f'show {spelled_of(text)}').split('/')[:-1]
        if tcpdump and subprocess.run([tcpdump, '-d', '-y', 'EN10MB', expression], capture_output=True, text=True).stdout.splitlines() != wanted:
            failed.append(f"{expression}: libpcap shows it otherwise than tcpdump -d")
        said = listed(bpf, 'blocks', filter, 1522)
        if said != (wanted, True):
            failed.append(f'{expression}, listed: want {str(wanted)[:200]}, got {str(said)[:200]}')
        for length in (64, 256, 1522):
            wanted = [int(it) for it in asked_filter(asked, text, length - 8, packets)]
            said = converted(bpf, 'blocks', filter, length, packets)
            runs += len(packets)
            if said != wanted:
                failed.append(f'{expression} at {length}: want {str(wanted)[:200]}, got {str(said)[:200]}')
    pcap.stdin.close()
    pcap.wait()
    for it in failed[:3]:
        print(it)
    by = 'tcpdump' if tcpdump else "libpcap (tcpdump isn't there)"
    print(f'classic: {tried} examples of pcap-filter(7), compiled by {by}: {len(failed)} answer otherwise than libpcap, on {runs} runs')
    return not failed and tried > 0


def spelled_of(text):
    """A filter as one word: the numbers of an instruction are apart by commas, for the line is cut at blanks."""
    return text.strip().replace('\n', '/').replace(' ', ',')


def asked_filter(asked, text, room, packets):
    words = ' '.join(it.hex() or 'none' for it in packets)
    return asked(f'filter {spelled_of(text)} {room} {words}').split()


def main():
    bpf = os.path.abspath(sys.argv[1])
    with tempfile.TemporaryDirectory(prefix='bpf-classic-') as room:
        return 0 if examples(bpf, room) else 1


if __name__ == '__main__':
    sys.exit(main())

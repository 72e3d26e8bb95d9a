#!/usr/bin/env python3
"""capture.py FOLDER: holds what FOLDER/capture (examples/hosts/capture.c) says of a capture that is made here to what tcpdump says of it. FOLDER/capture_pcap is
the same host built with libpcap; where it or tcpdump isn't there, what is left is tried, and that is said."""
import pathlib
import random
import shutil
import struct
import subprocess
import sys

import expressions

FOLDER = pathlib.Path(sys.argv[1])
TCPDUMP = shutil.which('tcpdump')
ETHERNET = 1
# `ip`, as tcpdump compiles it for Ethernet.
IP = '4\n40 0 0 12\n21 0 1 2048\n6 0 0 262144\n6 0 0 0\n'


def record(order, number, captured, length):
    """A packet of a pcap file: its number is its time, so that it can be found again."""
    return struct.pack(order + 'IIII', number, 0, len(captured), length) + captured


def capture_of(order, packets):
    """A pcap file of packets, each with the length that it had: some were cut while they were captured."""
    head = struct.pack(order + 'IHHiIII', 0xa1b2c3d4, 2, 4, 0, 0, 262144, ETHERNET)
    return head + b''.join(record(order, at + 1, captured, length) for at, (captured, length) in enumerate(packets))


def packets_of(rng):
    """Frames of all kinds, every fifth of them cut, and the longest that a block has room for."""
    for at, packet in enumerate(expressions.packets_for(rng)):
        yield (packet[:rng.randrange(len(packet) + 1)], len(packet)) if at % 5 == 4 else (packet, len(packet))
    longest = expressions.frame(rng).ljust(4088, b'\0')
    yield longest, 4088
    yield longest[:1514], 9000


def numbers_in(data):
    """The times of the packets of a pcap file in this machine's order."""
    at, numbers = 24, []
    while at < len(data):
        number, _, length, _ = struct.unpack_from('=IIII', data, at)
        numbers.append(number)
        at += 16 + length
    return numbers


def passed(host, words, text, packets):
    """The numbers of the packets that a host lets pass."""
    done = subprocess.run([FOLDER / host, *words], input=text, capture_output=True, text=True, timeout=60)
    assert done.returncode == 0, (host, words, text, done)
    numbers = [int(line) for line in done.stdout.splitlines()]
    assert done.stderr.startswith(f'{len(numbers)} of {packets} packets pass, within '), (host, words, done.stderr)
    return numbers


def refused():
    """What isn't converted is told, with the instruction; so is what is no filter and no capture."""
    frames = FOLDER / 'little.pcap'
    for words, text, status, said in [
            ([frames], '1\n5 0 0 7\n', 1, 'refused by B5 at instruction 0: it leads past the last instruction, or back past the first'),
            ([frames], '0\n', 1, 'refused by B1 at instruction 0: a filter has from 1 to 4,096 instructions'),
            ([frames], '2\n6 0 0 1\n', 1, "an instruction of the filter isn't four numbers"),
            ([frames], 'ip\n', 1, "the filter doesn't begin with how many instructions it has"),
            ([sys.argv[0]], IP, 2, 'is no pcap file'), ([FOLDER / 'none.pcap'], IP, 3, 'cannot read'), ([], IP, 2, 'usage: capture FILE')]:
        done = subprocess.run([FOLDER / 'capture', *words], input=text, capture_output=True, text=True, timeout=60)
        assert done.returncode == status and done.stdout == '' and said in done.stderr, (words, text, done)


def compared(name, count):
    """How many expressions have the packets that tcpdump says, by each host."""
    tried = 0
    for expression in expressions.EXAMPLES:
        written = subprocess.run([TCPDUMP, '-r', FOLDER / name, '-w', '-', expression], capture_output=True, timeout=60)
        if written.returncode:
            continue
        want = numbers_in(written.stdout)
        text = subprocess.run([TCPDUMP, '-ddd', '-r', FOLDER / name, expression], capture_output=True, text=True, timeout=60, check=True).stdout
        got = passed('capture', [FOLDER / name], text, count)
        assert got == want, (name, expression, got, want)
        if (FOLDER / 'capture_pcap').exists():
            got = passed('capture_pcap', [FOLDER / name, expression], '', count)
            assert got == want, (name, expression, got, want)
        tried += 1
    assert tried > 20, tried
    return tried


def main():
    packets = list(packets_of(random.Random(1)))
    for name, order in [('little.pcap', '<'), ('big.pcap', '>')]:
        (FOLDER / name).write_bytes(capture_of(order, packets))
        want = [at + 1 for at, (captured, _) in enumerate(packets) if captured[12:14] == b'\x08\0']
        assert want and passed('capture', [FOLDER / name], IP, len(packets)) == want
        if (FOLDER / 'capture_pcap').exists():
            assert passed('capture_pcap', [FOLDER / name, 'ip'], '', len(packets)) == want
    refused()
    tools = 'from text and by libpcap' if (FOLDER / 'capture_pcap').exists() else "from text (libpcap isn't there)"
    if TCPDUMP:
        tried = [compared(name, len(packets)) for name in ('little.pcap', 'big.pcap')]
        print(f'capture: {tried[0]} expressions on {len(packets)} packets, in files of both orders: {tools} those pass that pass tcpdump')
    else:
        print(f"capture: {len(packets)} packets, {tools}; tcpdump isn't there, so nothing was compared with it")


if __name__ == '__main__':
    main()

#!/usr/bin/env python3
"""Runs the filters of examples/c on packets and compares: filters.py BPF [FOLDER]

FOLDER has the images and certificates; where it isn't said, examples/c has. What each filter ought to answer is worked out here, from
what its source says it does, on packets made here. Each image and certificate gets a yes first, and each run ends within its bound.
"""
import os
import random
import re
import subprocess
import sys
import tempfile

HERE = os.path.join(os.path.dirname(os.path.abspath(__file__)), '..', 'examples', 'c')
SIZE = 128


def context(packet):
    """A context: the packet's length, little-endian, then its first 120 bytes."""
    return (len(packet).to_bytes(8, 'little') + packet[:SIZE - 8]).ljust(SIZE, b'\0')


def ipv4(rng, protocol, payload, words=5):
    """An Ethernet frame with an IPv4 packet whose header has so many words and a right checksum."""
    return bytes(rng.randrange(256) for _ in range(12)) + b'\x08\x00' + header(rng, protocol, words) + payload


def header(rng, protocol, words=5):
    head = bytearray(rng.randrange(256) for _ in range(4 * words))
    head[0] = 0x40 | words
    head[6:8] = b'\x40\x00'
    head[9] = protocol
    head[10:12] = b'\0\0'
    total = sum(int.from_bytes(head[i:i + 2], 'big') for i in range(0, len(head), 2))
    while total >> 16:
        total = (total & 0xffff) + (total >> 16)
    head[10:12] = (0xffff - total).to_bytes(2, 'big')
    return bytes(head)


def port(rng):
    for words in (5, 6, 15):
        for number in (443, 80, 444, 0x01bb):
            segment = (1234).to_bytes(2, 'big') + number.to_bytes(2, 'big') + bytes(16)
            yield context(ipv4(rng, 6, segment, words)), int(number == 443)
            yield context(ipv4(rng, 17, segment, words)), 0
    good = bytearray(ipv4(rng, 6, (1).to_bytes(2, 'big') + (443).to_bytes(2, 'big')))
    yield context(bytes(good)), 1
    yield context(bytes(good[:37])), 0
    for at, value in ((12, 0x86), (14, 0x55), (14, 0x44), (20, 0x01), (21, 0x01)):
        bad = bytearray(good)
        bad[at] = value
        yield context(bytes(bad)), 0
    yield context(b''), 0


def dns(rng):
    def query(*labels):
        name = b''.join(bytes([len(label)]) + label for label in labels) + b'\0'
        return b'\x12\x34\x01\x00\x00\x01\x00\x00\x00\x00\x00\x00' + name + b'\x00\x01\x00\x01'
    yield context(query(b'www', b'example', b'test')), 3
    yield context(query(b'test')), 1
    yield context(query(b'test', b'example')), 0
    yield context(query(b'www', b'example', b'tesT')), 0
    yield context(query(*[b'a'] * 22, b'test')), 23
    yield context(query(*[b'a'] * 23, b'test')), 0
    yield context(query()), 0
    yield context(query(b'x' * 63, b'test')), 2
    yield context(b'\x12\x34\x81\x00\x00\x01' + query(b'test')[6:]), int(0)
    yield context(query(b'test')[:16]), 0
    yield context(b'\x12\x34\x01\x00\x00\x01\x00\x00\x00\x00\x00\x00\xc0\x0c' + bytes(8)), 0


def checksum(rng):
    for words in range(5, 16):
        head = header(rng, rng.randrange(256), words)
        yield context(head), 1
        bad = bytearray(head)
        bad[rng.randrange(1, len(bad))] ^= 1 << rng.randrange(8)
        yield context(bytes(bad)), 0
        yield context(head[:-1]), 0
    yield context(b'\x44' + bytes(40)), 0


def histogram(rng):
    for kinds in (1, 2, 5, 16):
        packet = bytes(16 * rng.randrange(kinds) + rng.randrange(16) for _ in range(SIZE - 8))
        counts = [sum(1 for byte in packet if byte >> 4 == kind) for kind in range(16)]
        yield context(packet), max(counts) % 256 << 8 | sum(1 for count in counts if count)


def rate(rng):
    for _ in range(20):
        packet = ipv4(rng, 17, bytes(rng.randrange(256) for _ in range(16)))
        value = 2166136261
        for byte in packet[26:38]:
            value = (value ^ byte) * 16777619 % 2 ** 32
        yield context(packet), (value ^ value >> 16) & 7
    yield context(b'\0' * 12 + b'\x86\xdd' + bytes(40)), 0


def http(rng):
    for text, answer in ((b'GET / HTTP/1.1', 1), (b'POST /a HTTP', 2), (b'HEAD / HTTP/', 3), (b'PUT /x HTTP/', 4), (b'DELETE /x HT', 5),
                         (b'get / HTTP/1.1', 0), (b'GETS / HTTP/1', 0), (b'PUSH /x HTTP', 0), (b'GET /ab', 0), (b'GET /abc', 1), (b'', 0)):
        yield context(text), answer


def main():
    bpf = os.path.abspath(sys.argv[1])
    folder = sys.argv[2] if len(sys.argv) > 2 else HERE
    rng = random.Random(1)
    runs = 0
    for filter_of in (port, dns, checksum, histogram, rate, http):
        name = os.path.join(folder, filter_of.__name__)
        image, certificate = name + '.img', name + '.cert'
        said = subprocess.run([bpf, 'check', image, certificate], capture_output=True, text=True).stdout
        bound = re.fullmatch(r'yes length 128 bound (\d+)\n', said)
        if not bound:
            sys.exit(f'{filter_of.__name__}: check says {said!r}')
        cases = list(filter_of(rng))
        with tempfile.NamedTemporaryFile('w', suffix='.contexts') as lines:
            lines.writelines(given.hex() + '\n' for given, _ in cases)
            lines.flush()
            checked = subprocess.run([bpf, 'run-checked', image, certificate, '--contexts', lines.name], capture_output=True, text=True)
            plain = subprocess.run([bpf, 'run', image, '--contexts', lines.name], capture_output=True, text=True)
        wanted = ''.join(f'done {answer}\n' for _, answer in cases)
        if checked.stdout != wanted:
            for given, said, want in zip(cases, checked.stdout.splitlines(), wanted.splitlines()):
                if said != want:
                    print(given[0].hex(), said, 'wanted', want)
            sys.exit(f'{filter_of.__name__}: run-checked answers otherwise: {checked.stderr}')
        for line, (_, answer) in zip(plain.stdout.splitlines(), cases):
            done = re.fullmatch(r'done (\d+) steps (\d+)', line)
            if not done or int(done[1]) != answer or int(done[2]) > int(bound[1]):
                sys.exit(f'{filter_of.__name__}: run says {line!r}, wanted {answer} within {bound[1]}')
        runs += len(cases)
    print(f'filters: {runs} runs of 6 filters answer as they ought to')


if __name__ == '__main__':
    main()

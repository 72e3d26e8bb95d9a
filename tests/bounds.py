#!/usr/bin/env python3
"""bounds.py BPF: holds the built command to answers that are too long for an example of tests/rows, or computed:

- each form of an instruction has its image in both byte orders, and is listed again; opcodes and fields are those of RFC 9669, by a
  table of this script;
- each of the 256 opcodes is known, left out, or unknown, and known ones are in their conformance group;
- texts and programs end where ASSEMBLY.md says: 65,536 slots, 16 bits of distance;
- the longest text that is read has 16,777,216 bytes, and one without end is left in bounded memory;
- listings and images that end about a piece of 4,096 bytes, or have an instruction over two, go out whole: each write but the last
  is a piece. Standard output is a socket that keeps the ends of writes.

Nothing that is wanted comes from the command."""

import os
import resource
import socket
import struct
import subprocess
import sys
import tempfile
from collections import namedtuple
from concurrent.futures import ThreadPoolExecutor

PIECE = 4096
SECONDS = 60

# What is asked, how it is shown, standard input, what must be written, and the status: a refusal begins with `no ` and has status 1.
Ask = namedtuple("Ask", "shows words given wanted status", defaults=(None,))

# An instruction: its text, and the fields of its slot; `upper` are the upper 32 bits of a 64-bit constant, or None.
Form = namedtuple("Form", "text opcode dst src off imm upper", defaults=(0, 0, 0, 0, None))

OPERATORS = [("+=", 0, 0), ("-=", 1, 0), ("*=", 2, 0), ("/=", 3, 0), ("s/=", 3, 1), ("|=", 4, 0), ("&=", 5, 0), ("<<=", 6, 0),
             (">>=", 7, 0), ("%=", 9, 0), ("s%=", 9, 1), ("^=", 10, 0), ("=", 11, 0), ("s>>=", 12, 0)]
TESTS = [("==", 1), (">", 2), (">=", 3), ("&", 4), ("!=", 5), ("s>", 6), ("s>=", 7), ("<", 10), ("<=", 11), ("s<", 12), ("s<=", 13)]
# The operand's text, the source bit, src and imm.
OPERANDS = [("-5", 0, 0, -5), ("305419896", 0, 0, 0x12345678), ("{}9", 8, 9, 0)]
SIZES = [("8", 0x10), ("16", 0x08), ("32", 0x00), ("64", 0x18)]
CHANGES = [("+=", 0x00), ("|=", 0x40), ("&=", 0x50), ("^=", 0xA0)]

# Opcodes that RFC 9669 has and the profile leaves out: packet access, and a call with src 0.
LEFT_OUT = {0x20, 0x28, 0x30, 0x40, 0x48, 0x50, 0x85}
# With all other fields zero: byte swaps lack a number of bits, and `exit` is no second slot.
WANTING = {0xD4: "E5", 0xD7: "E5", 0xDC: "E5", 0x18: "E4"}


def operations():
    """Arithmetic and conditional jumps with two operands."""
    for kind, alu, jump in (("w", 4, 6), ("r", 7, 5)):
        for operand, source, src, imm in OPERANDS:
            spelled = operand.format(kind)
            for operator, code, off in OPERATORS:
                yield Form(f"{kind}1 {operator} {spelled}", code << 4 | source | alu, 1, src, off, imm)
            for test, code in TESTS:
                yield Form(f"if {kind}10 {test} {spelled} goto +0", code << 4 | source | jump, 10, src, 0, imm)


def changes_of_one():
    """Negations, moves that extend the sign, byte swaps and 64-bit constants."""
    for kind, opcode in (("w", 0x84), ("r", 0x87)):
        yield Form(f"{kind}2 = -{kind}2", opcode, 2)
    for kind, opcode, bits in (("w", 0xBC, 8), ("w", 0xBC, 16), ("r", 0xBF, 8), ("r", 0xBF, 16), ("r", 0xBF, 32)):
        yield Form(f"{kind}3 = (s{bits}){kind}4", opcode, 3, 4, bits)
    for swap, opcode in (("le", 0xD4), ("be", 0xDC), ("bswap", 0xD7)):
        for bits in (16, 32, 64):
            yield Form(f"r5 = {swap}{bits} r5", opcode, 5, imm=bits)
    yield Form("r6 = 0x123456789abcdef0 ll", 0x18, 6, imm=0x9ABCDEF0, upper=0x12345678)
    yield Form("r0 = 0xffffffffffffffff ll", 0x18, 0, imm=0xFFFFFFFF, upper=0xFFFFFFFF)


def memory():
    """Loads, stores and atomic operations."""
    for bits, size in SIZES:
        yield Form(f"r7 = *(u{bits} *)(r8 - 32768)", 0x61 | size, 7, 8, -32768)
        yield Form(f"*(u{bits} *)(r7 + 32767) = r8", 0x63 | size, 7, 8, 32767)
        yield Form(f"*(u{bits} *)(r7 - 1) = -2147483648", 0x62 | size, 7, 0, -1, -2147483648)
    for bits, size in SIZES[:3]:
        yield Form(f"r0 = *(s{bits} *)(r10 - 2)", 0x81 | size, 0, 10, -2)
    for place, opcode in (("*(u32 *)(r10 - 8)", 0xC3), ("*(u64 *)(r10 - 8)", 0xDB)):
        for operator, imm in CHANGES:
            yield Form(f"lock {place} {operator} r0", opcode, 10, 0, -8, imm)
            yield Form(f"lock fetch {place} {operator} r0", opcode, 10, 0, -8, imm | 1)
        yield Form(f"lock xchg {place}, r0", opcode, 10, 0, -8, 0xE1)
        yield Form(f"lock cmpxchg {place}, r0", opcode, 10, 0, -8, 0xF1)


def flow():
    yield Form("goto +0", 0x05)
    yield Form("gotol +0", 0x06)
    yield Form("call +0", 0x85, src=1)
    yield Form("exit", 0x95)


FORMS = [*operations(), *changes_of_one(), *memory(), *flow()]


def slot(big, opcode, dst=0, src=0, off=0, imm=0):
    registers = dst << 4 | src if big else src << 4 | dst
    return struct.pack(">BBhI" if big else "<BBhI", opcode, registers, off, imm & 0xFFFFFFFF)


def image_of(form, big=False):
    first = slot(big, form.opcode, form.dst, form.src, form.off, form.imm)
    return first if form.upper is None else first + slot(big, 0, imm=form.upper)


def both_ways(shows, text, image, *flags):
    """The text assembles to the image, and the image is listed as the text."""
    yield Ask(f"{shows}, assembled", ["asm", *flags, "-", "-"], text, image)
    yield Ask(f"{shows}, listed", ["list", *flags, "-"], image, text)


def forms():
    """Every form, in one program."""
    text = "".join(f"{form.text}\n" for form in FORMS).encode()
    for flags in ([], ["--big"]):
        image = b"".join(image_of(form, bool(flags)) for form in FORMS)
        yield from both_ways(" ".join(["every form", *flags]), text, image, *flags)


def groups_of(opcode):
    """The conformance groups of an instruction and `exit`, which is of the first."""
    if opcode in (0xC3, 0xDB):
        return "base atomic"
    return "base divmul" if opcode & 7 in (4, 7) and opcode >> 4 in (2, 3, 9) else "base"


def opcodes():
    """Each opcode with zero in all other fields, and `exit` behind it, where its jump leads."""
    known = {form.opcode for form in FORMS}
    for opcode in range(256):
        refusal = "E7" if opcode in LEFT_OUT else WANTING.get(opcode) if opcode in known else "E2"
        wanted = f"no {refusal} at slot 0\n" if refusal else f"{groups_of(opcode)}\n"
        yield Ask(f"opcode {opcode:02x}", ["groups", "-"], slot(False, opcode) + slot(False, 0x95), wanted.encode())


SUM, SUM_IMAGE = b"r0 += r0\n", slot(False, 0x0F)
EXIT_IMAGE = slot(False, 0x95)


def refused(shows, text, wanted):
    return Ask(shows, ["asm", "-", "-"], text, wanted)


def unread(shows, given, *words):
    """A text that is too long to be read."""
    return Ask(shows, list(words), given, f"cannot read {words[-1]}\n".encode(), 3)


def limits():
    """Distances, slots and bytes, as far as they go and one further."""
    for sums in (32767, 32768):
        image = slot(False, 0x05, off=32767) + SUM_IMAGE * sums + EXIT_IMAGE
        wanted = image if sums == 32767 else b"no A5 at line 1\n"
        yield Ask(f"a jump over {sums} slots", ["asm", "-", "-"], b"goto x\n" + SUM * sums + b"x: exit", wanted)
    text = b"r6 = 10\n" + SUM * 65534 + b"exit\n"
    image = slot(False, 0xB7, 6, imm=10) + SUM_IMAGE * 65534 + EXIT_IMAGE
    yield from both_ways("65,536 slots", text, image)
    yield refused("65,537 slots", b"r6 = 10\n" + SUM * 65535 + b"exit\n", b"no A6 at line 1 (E1 at slot 0)\n")
    longest = b"exit\n;" + b"a comment of 16 " * 1048575 + b"and of ten"
    assert len(longest) == 16777216
    yield Ask("a text of the greatest length", ["asm", "-", "-"], longest, EXIT_IMAGE)
    yield unread("a text of a byte more", longest + b"\n", "asm", "-", "-")
    yield unread("the same in words", longest + b"\n", "explain", "--text", "-")


MOVE, MOVE_IMAGE = b"r1 = 5\n", slot(False, 0xB7, 1, imm=5)


def listing_of(size):
    """A listing of so many bytes, and its image: `exit` behind moves, of which up to six are a byte longer."""
    moves, longer = divmod(size - 5, 7)
    text = b"r1 = 55\n" * longer + MOVE * (moves - longer) + b"exit\n"
    assert len(text) == size
    return text, slot(False, 0xB7, 1, imm=55) * longer + MOVE_IMAGE * (moves - longer) + EXIT_IMAGE


def pieces():
    """Listings and images that end about a piece, and a wide instruction over the end of one."""
    for size in (4095, 4096, 4097, 8191, 8192, 8193, 12288, 10000):
        yield from both_ways(f"a listing of {size} bytes", *listing_of(size))
    for moves in (510, 511, 512, 1022, 1023, 1024):
        yield from both_ways(f"an image of {8 * moves + 8} bytes", MOVE * moves + b"exit\n", MOVE_IMAGE * moves + EXIT_IMAGE)
    wide = bytes.fromhex("1802000007000000 0000000090000000")
    yield from both_ways("a wide instruction over two pieces", MOVE * 511 + b"r2 = 0x9000000007 ll\nexit\n",
                         MOVE_IMAGE * 511 + wide + EXIT_IMAGE)


def answer_to(bpf, ask):
    """The command's status, and each of its writes to standard output or standard error."""
    ours, theirs = socket.socketpair(socket.AF_UNIX, socket.SOCK_SEQPACKET)
    with ours, tempfile.TemporaryFile() as given:
        given.write(ask.given)
        given.seek(0)
        with theirs:
            child = subprocess.Popen([bpf, *ask.words], stdin=given, stdout=theirs, stderr=theirs)
        ours.settimeout(SECONDS)
        try:
            writes = list(iter(lambda: ours.recv(1 << 20), b""))
            return child.wait(SECONDS), writes
        finally:
            child.kill()
            child.wait()


def endless(bpf):
    """What is wrong with the answers to a text and to an image without end, where the command may have 256 MiB of memory, or nothing."""
    unread, too_long = (3, b"", b"cannot read /dev/zero\n"), (1, b"no E1 at slot 0\n", b"")
    for words, wanted in ((["asm", "/dev/zero", "-"], unread), (["explain", "--text", "/dev/zero"], unread), (["groups", "/dev/zero"], too_long)):
        room = lambda: resource.setrlimit(resource.RLIMIT_AS, (1 << 28, 1 << 28))
        done = subprocess.run([bpf, *words], preexec_fn=room, capture_output=True, timeout=SECONDS, check=False)
        got = done.returncode, done.stdout, done.stderr
        if got != wanted:
            return f"{words}: {got}"
    return ""


def difference(got, wanted):
    at = next((i for i, (one, other) in enumerate(zip(got, wanted)) if one != other), min(len(got), len(wanted)))
    start = max(at - 16, 0)
    return f"at byte {at}: {got[start:at + 48]!r} of {len(got)} bytes\n in place of {wanted[start:at + 48]!r} of {len(wanted)} bytes"


def wrong(bpf, ask):
    """What the command answers otherwise than is wanted, or nothing."""
    try:
        status, writes = answer_to(bpf, ask)
    except (TimeoutError, subprocess.TimeoutExpired):
        return f"{ask.shows}: no answer in {SECONDS} seconds"
    got = b"".join(writes)
    if got != ask.wanted:
        return f"{ask.shows}: {difference(got, ask.wanted)}"
    if status != (ask.wanted.startswith(b"no ") if ask.status is None else ask.status):
        return f"{ask.shows}: status {status}"
    lengths = [len(it) for it in writes]
    if ask.words[0] != "groups" and status == 0 and any(it != PIECE for it in lengths[:-1]):
        return f"{ask.shows}: writes of {lengths} bytes, in place of pieces of {PIECE}"
    return ""


def main(bpf):
    asks = [*limits(), *pieces(), *forms(), *opcodes()]
    with ThreadPoolExecutor(os.cpu_count()) as pool:
        for failed in pool.map(lambda ask: wrong(bpf, ask), asks):
            if failed:
                pool.shutdown(cancel_futures=True)
                print(f"bounds: {failed}")
                return 1
    if failed := endless(bpf):
        print(f"bounds: {failed}")
        return 1
    print(f"bounds: {len(asks) + 2} commands, no wrong answer")
    return 0


if __name__ == "__main__":
    sys.exit(main(os.path.abspath(sys.argv[1])))

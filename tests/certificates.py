#!/usr/bin/env python3
"""certificates.py BPF: holds the built command to certificates and programs that are too long for an example of tests/rows, or
generated:

- texts about the limits of lines, functions and labels, a text cut at each byte, and long ones that are written again as they were;
- the longest program, its work, its run, also on the plain machine of flat.py, and a longer one; as many functions as a certificate may have, and one more;
  frames of which one slot lacks a byte;
- generated programs with jumps to and fro, and loops in one another: what is proposed is certified, a run ends within its bound,
  and the deep search is as good as the plain one.

Nothing that is wanted comes from the command."""

import os
import random
import subprocess
import sys
import tempfile
from concurrent.futures import ThreadPoolExecutor

import flat

BPF = os.path.abspath(sys.argv[1])
SECONDS = 60
LONGEST_RUN = 1_000_000

MOVE, EXIT = (bytes([opcode]) + bytes(7) for opcode in (0xB7, 0x95))
CERTIFICATE = "bpfcert 1 0 2\nfn 0 1 *\nat 0 2\nend\n"

REGISTERS = [0, 3, 4, 6, 7, 8, 9]
BEGINNING = "r0 = 0\nr3 = 1\nr4 = 10\nr6 = 0\nr7 = 8\nr8 = 3\nr9 = 20\n*(u64 *)(r10 - 8) = 5\n"


def wrong(shows, got, wanted):
    sys.exit(f"certificates: {shows}\n  got    {got}\n  wanted {wanted}")


class Folder:
    """A folder of files that the command works on."""

    def __init__(self):
        self.room = tempfile.TemporaryDirectory()
        self.commands = 0

    def put(self, name, data):
        with open(os.path.join(self.room.name, name), "wb") as file:
            file.write(data if isinstance(data, bytes) else data.encode())

    def get(self, name):
        with open(os.path.join(self.room.name, name)) as file:
            return file.read()

    def bpf(self, *words):
        """The status, and what is written to standard output."""
        self.commands += 1
        done = subprocess.run([BPF, *words], cwd=self.room.name, capture_output=True, timeout=SECONDS)
        if done.stderr:
            wrong(words, done.stderr, "nothing on standard error")
        return done.returncode, done.stdout.decode()

    def says(self, shows, words, said):
        if (got := self.bpf(*words)) != (int(said.startswith("no ")), said):
            wrong(shows, got, said)


# ---- texts

def each(pattern, numbers):
    return "".join(pattern.format(n=number) for number in numbers)


def refused():
    """Texts that are refused, each at the lowest line at fault."""
    zeros = "0" * 256
    return [
        ("a line of 256 bytes without its end", zeros, "no K1 at line 1\n"),
        ("a line of 257 bytes without its end", zeros + "0", "no K3 at line 1\n"),
        ("a line of 257 bytes", zeros + "0\n", "no K3 at line 1\n"),
        ("a byte behind the end", CERTIFICATE + "x", "no K1 at line 5\n"),
        ("an empty line behind the end", CERTIFICATE + "\n", "no K1 at line 5\n"),
        ("257 functions", "bpfcert 1 0 2\n" + each("fn {n} 1 *\nat {n} 2\n", range(257)), "no K3 at line 514\n"),
        ("65,537 labels", "bpfcert 1 0 2\nfn 0 1 *\n" + each("at {n} 2\n", range(65536)) + "fn 1 1 *\nat 0 2\n", "no K3 at line 65540\n"),
    ]


def hold_refused():
    folder = Folder()
    folder.put("p.img", MOVE + EXIT)
    for shows, text, said in refused():
        folder.put("p.cert", text)
        folder.says(shows, ["check", "p.img", "p.cert"], said)
    return folder.commands


def hold_cuts():
    """A text that ends before its end is refused at the line that it ends in."""
    folder, text = Folder(), CERTIFICATE.replace("at 0 2\n", "at 0 2 +1*r6\nr6 u1..10,s1..10\ns1 b3\n")
    folder.put("p.img", MOVE + EXIT)
    for length in range(len(text)):
        folder.put("p.cert", text[:length])
        folder.says(f"the first {length} bytes", ["check", "p.img", "p.cert"], f"no K1 at line {text[:length].count(chr(10)) + 1}\n")
    return folder.commands


# ---- what is long

def full_labels():
    """Nine labels, each of which says something of nine registers and of all slots."""
    registers = [f"r{number} fp-{number + 1}..{{slot}}\n" for number in range(9)]
    slots = [f"s{number} b{number}\n" for number in range(1, 65)]
    label = "at {slot} 1\n" + "".join(registers + slots)
    return "fn 0 1 *\n" + "".join(label.format(slot=slot) for slot in range(9)) + "end\n"


def greatest():
    """Texts that are as long as a limit allows, without their first line."""
    return {
        "full labels": full_labels(),
        "256 functions": each("fn {n} 1 *\nat {n} 2\n", range(256)) + "end\n",
        "65,536 labels": "fn 0 1 *\n" + each("at {n} 2\n", range(65536)) + "end\n",
    }


def hold_migrations():
    """A text of several pieces is written again as it was, but for its version."""
    folder = Folder()
    for shows, rest in greatest().items():
        for version in ("bpfcert 1 0 2\n", "bpfcert 2 0 0 2\n"):
            folder.put("full.cert", version + rest)
            folder.says(shows, ["migrate", "full.cert", "new.cert"], "")
            if folder.get("new.cert") != "bpfcert 2 0 0 2\n" + rest:
                wrong(f"{shows}, written", folder.get("new.cert")[:200], "the same in version 2")
    return folder.commands


def hold_longest():
    """65,536 slots, and one more."""
    folder = Folder()
    folder.put("long.img", MOVE * 65535 + EXIT)
    folder.put("longer.img", MOVE * 65536 + EXIT)
    folder.put("long.cert", "bpfcert 1 0 65536\nfn 0 1 *\nat 0 65536\nend\n")
    yes = "yes length 0 bound 65536\n"
    folder.says("the longest program", ["check", "long.img", "long.cert"], yes)
    folder.says("its work", ["check", "--work", "long.img", "long.cert"], yes + "transfers 65536 comparisons 2\n")
    folder.says("its run", ["run", "long.img", "none", "--steps", "65536"], "done 0 steps 65536\n")
    folder.says("its checked run", ["run-checked", "long.img", "long.cert", "none"], "done 0\n")
    for placement in flat.PLACEMENTS:
        if (found := flat.run(MOVE * 65535 + EXIT, False, b"", placement, 65536)) != 0:
            wrong(f"its run on the plain machine with {placement}", found, 0)
    folder.says("a longer program", ["check", "longer.img", "long.cert"], "no E1 at slot 0\n")
    return folder.commands


def hold_functions():
    """A function that calls 255 others is proposed for and certified; 256 others are too many."""
    folder = Folder()
    for others, proposed in ((256, "no I2 at slot 767\n"), (255, "")):
        folder.put("fan.asm", each("call f{n}\n", range(others)) + "exit\n" + each("f{n}: r0 = 0\nexit\n", range(others)))
        folder.says("a fan", ["asm", "fan.asm", "fan.img"], "")
        folder.says(f"a fan of {others}", ["infer", "fan.img", "0", "fan.cert"], proposed)
    folder.says("a fan's certificate", ["check", "fan.img", "fan.cert"], "yes length 0 bound 766\n")
    return folder.commands


def filled(lacking):
    """A program that stores seven bytes in each slot of the frame, and six in one."""
    stores = [f"*(u32 *)(r10 - {8 * slot}) = 0\n*(u16 *)(r10 - {8 * slot - 4}) = 0\n"
              + ("" if slot == lacking else f"*(u8 *)(r10 - {8 * slot - 6}) = 0\n") for slot in range(1, 65)]
    return "r0 = 0\n" + "".join(stores) + "exit\n"


def claiming(lacking, mask):
    """A certificate that claims seven bytes of each slot of the frame, and those of a mask of one."""
    claims = "".join(f"s{slot} b{mask if slot == lacking else 127}\n" for slot in range(1, 65))
    return "bpfcert 1 0 193\nfn 0 1 *\nat 0 193\nat 192 1\nr0 *\n" + claims + "end\n"


def hold_slots():
    """Whichever slot lacks a byte, that is missed where it is claimed, and is no harm where it isn't."""
    folder = Folder()
    for lacking in range(1, 65):
        folder.put("p.asm", filled(lacking))
        folder.put("six.cert", claiming(lacking, 63))
        folder.put("seven.cert", claiming(lacking, 127))
        folder.says("a filled frame", ["asm", "p.asm", "p.img"], "")
        folder.says(f"six bytes of slot {lacking}", ["check", "p.img", "six.cert"], "yes length 0 bound 193\n")
        folder.says(f"seven bytes of slot {lacking}", ["check", "p.img", "seven.cert"], "no C8 at slot 191\n")
    return folder.commands


# ---- what is generated

def jumping(dice):
    """A program with jumps to and fro."""
    count = dice.randrange(2, 16)
    lines = []
    for number in range(count):
        one, other = dice.choice(REGISTERS), dice.choice(REGISTERS)
        test = f"if r{one} {dice.choice(['!=', '<', '>', '==', '>=', '<='])} {dice.randrange(12)} goto l{dice.randrange(count)}"
        deed = dice.choice([f"r{one} += 1"] * 3 + [f"r{one} += -1"] * 2 + [test] * 2
                           + [f"r{one} = r{other}", f"r{one} = *(u64 *)(r10 - 8)", f"*(u64 *)(r10 - 8) = r{one}"])
        lines.append(f"l{number}: {deed}\n")
    return BEGINNING + "".join(lines) + "exit\n"


def nested(dice):
    """One to four loops, the next one within each."""
    heads, tails = [], []
    for level in range(dice.randrange(1, 5)):
        reg, step, rounds = f"r{level + 6}", dice.randrange(1, 4), dice.randrange(1, 10)
        limit = step * rounds
        head, tail = dice.choice([
            (f"{reg} = {rounds}\na{level}: r0 += 1\n", f"{reg} += -1\nif {reg} != 0 goto a{level}\n"),
            (f"{reg} = 0\na{level}: r0 += 1\n", f"{reg} += {step}\nif {reg} < {limit} goto a{level}\n"),
            (f"{reg} = 0\na{level}: if {reg} > {limit} goto b{level}\n", f"{reg} += {step}\ngoto a{level}\nb{level}: r0 += 2\n"),
        ])
        heads.append(head)
        tails.append(tail)
    return "r0 = 0\n" + "".join(heads) + "".join(reversed(tails)) + "exit\n"


def bound_of(folder, text, *flags):
    """The bound that is certified of what is proposed; None where nothing is. A run is done within it, with one number."""
    status, said = folder.bpf("infer", "p.img", "0", "p.cert", *flags)
    if status:
        return None
    status, said = folder.bpf("check", "p.img", "p.cert")
    if status:
        wrong(f"a proposal for\n{text}", said, "yes")
    bound = int(said.split()[-1])
    if bound <= LONGEST_RUN:
        done, number = folder.bpf("run", "p.img", "none", "--steps", str(bound)), folder.bpf("run-checked", "p.img", "p.cert", "none")
        if done[0] or number != (0, done[1].split(" steps")[0] + "\n"):
            wrong(f"a run of\n{text}", (done, number), f"the same number, within {bound} steps")
    return bound


def hold_proposals(text):
    """Whether the deep search finds something, and how many commands that took."""
    folder = Folder()
    folder.put("p.asm", text)
    folder.says("a generated program", ["asm", "p.asm", "p.img"], "")
    plain, deep = bound_of(folder, text), bound_of(folder, text, "--deep")
    if plain is not None and (deep is None or deep > plain):
        wrong(f"the deep search for\n{text}", deep, f"at most {plain}")
    return deep is not None, folder.commands


def hold_generated(pool):
    jumps, nests = random.Random(22), random.Random(7)
    some = list(pool.map(hold_proposals, [jumping(jumps) for _ in range(1000)]))
    every = list(pool.map(hold_proposals, [nested(nests) for _ in range(300)]))
    if sum(found for found, _ in some) <= 200:
        wrong("programs with jumps to and fro", sum(found for found, _ in some), "more than a fifth certified")
    if not all(found for found, _ in every):
        wrong("loops in one another", sum(found for found, _ in every), "all certified")
    return sum(commands for _, commands in some + every)


def main():
    with ThreadPoolExecutor(os.cpu_count()) as pool:
        commands = hold_refused() + hold_cuts() + hold_migrations() + hold_longest() + hold_functions() + hold_slots() + hold_generated(pool)
    print(f"certificates: {commands} commands, no wrong answer")


main()

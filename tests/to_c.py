#!/usr/bin/env python3
"""to_c.py BPF [COUNT [SEED]]: holds the C of `bpf to-c` to the exact machine, by each of gcc and clang that is there, at -O0 and -O3 with
-fsanitize=undefined,address, and at -O3 alone with -Wall -Wextra -pedantic -Werror:

- each form of an instruction, in both byte orders, on numbers at the edges; loads and stores of each size, atomic operations, jumps, calls;
- the checked runs of tests/rows that end, with the answers that the rows say;
- the certified images of examples and of examples/c, programs of tests/natural where a compiler for BPF is there, programs cut into several parts;
- COUNT random programs (40, or as many as are asked for), with branches, loops over a counter, frames and calls;
- a length that the certificate leaves out is answered by 0, and NAME_takes tells it;
- names that C can and can't have.

What is wanted else are the answers of `bpf run`, which is proved to be the machine of MACHINE.md. Many programs go into one file of C, so that this
takes few runs of a compiler, and shows that their texts can stand together."""

import dataclasses
import os
import random
import re
import shutil
import subprocess
import sys
import tempfile
from concurrent.futures import ThreadPoolExecutor
from pathlib import Path

import natural
import rows

ROOT = Path(__file__).resolve().parent.parent
STEPS = "1000000"
BATCH = 200
STRICT = ["-std=c11", "-Wall", "-Wextra", "-pedantic", "-Werror"]
SANITIZE = ["-fsanitize=undefined,address", "-fno-sanitize-recover=all", "-g0"]
BUILDS = [["-O0", *SANITIZE], ["-O3", *SANITIZE], ["-O3"]]
LENGTH = 16

EDGES = [0, 1, 2, 5, 31, 32, 33, 63, 64, 0x7F, 0x80, 0xFF, 0x7FFF, 0x8000, 0x7FFFFFFF, 0x80000000, 0xFFFFFFFF, 0x100000000,
         0x7FFFFFFFFFFFFFFF, 0x8000000000000000, 0x8000000080000000, 0xFFFFFFFFFFFFFFFF, 0xFFFFFFFF00000000, 0x0123456789ABCDEF]
FEW = [0, 5, -1, 63, -2147483648]
CONSTANTS = [0, 1, -1, 2, 5, -3, 31, 32, 63, 64, 255, -128, 65535, 2147483647, -2147483648]
OPERATORS = ["+=", "-=", "*=", "/=", "s/=", "|=", "&=", "<<=", ">>=", "%=", "s%=", "^=", "=", "s>>="]
TESTS = ["==", ">", ">=", "&", "!=", "s>", "s>=", "<", "<=", "s<", "s<="]
UNARY = ["w6 = -w6", "r6 = -r6", "w6 = (s8)w7", "w6 = (s16)w7", "r6 = (s8)r7", "r6 = (s16)r7", "r6 = (s32)r7"]
UNARY += [f"r6 = {swap}{bits} r6" for swap in ("le", "be", "bswap") for bits in (16, 32, 64)]
ATOMIC = [f"lock {fetch}*(u{bits} *)(r10 - 8) {op} r7" for bits in (32, 64) for fetch in ("", "fetch ") for op in ("+=", "|=", "&=", "^=")]
ATOMIC += [f"lock {op} *(u{bits} *)(r10 - 8), r7" for bits in (32, 64) for op in ("xchg", "cmpxchg")]

HEAD = "r6 = *(u64 *)(r1 + 0)\nr7 = *(u64 *)(r1 + 8)\n"
END = "r0 = r6\nexit\n"


def forms():
    """Programs of one form each, over two numbers of the context; and for each what else is looked at."""
    for w in "wr":
        for op in OPERATORS:
            yield f"{HEAD}{w}6 {op} {w}7\n{END}"
            yield from (f"{HEAD}{w}6 {op} {k}\n{END}" for k in FEW)
        for test in TESTS:
            yield f"{HEAD}r0 = 1\nif {w}6 {test} {w}7 goto +1\nr0 = 2\nexit\n"
            yield from (f"{HEAD}r0 = 1\nif {w}6 {test} {k} goto +1\nr0 = 2\nexit\n" for k in FEW)
    yield from (f"{HEAD}{form}\n{END}" for form in UNARY)
    yield from (f"{HEAD}r0 = r7\n*(u64 *)(r10 - 8) = r6\n{form}\nr6 = *(u64 *)(r10 - 8)\nr6 ^= r0\nr6 *= 31\nr6 += r7\n{END}" for form in ATOMIC)
    for bits in (8, 16, 32, 64):
        yield from (f"r0 = *({sign}{bits} *)(r1 + {at})\nexit\n" for sign in "us" for at in (0, 3, 8) if (sign, bits) != ("s", 64))
        store = f"{HEAD}*(u64 *)(r10 - 16) = r6\n*(u64 *)(r10 - 8) = r6\n"
        yield from (f"{store}*(u{bits} *)(r10 - {at}) = {x}\nr6 = *(u64 *)(r10 - 16)\nr0 = *(u64 *)(r10 - 8)\nr6 *= 31\nr6 ^= r0\n{END}"
                    for x in ("r7", "-2", "1234567890") for at in (8, 12, 16))
    yield "r0 = 0x8000000000000001 ll\nexit\n"
    yield f"{HEAD}r1 = r6\nr2 = r7\ncall +2\nr0 += r6\nexit\n*(u64 *)(r10 - 8) = r1\nr6 = 7\nr0 = *(u64 *)(r10 - 8)\nr0 ^= r2\nexit\n"
    yield f"{HEAD}gotol +1\nr6 = 1\n{END}"


def body(rng, depth, lines, last):
    """Random statements on r0 and r6 to r9, which hold numbers, over a frame whose last 32 bytes are written."""
    def reg():
        return rng.choice("06789")
    for _ in range(rng.randrange(4, 14)):
        kind = rng.randrange(10)
        w = rng.choice("wr")
        if kind < 4:
            x = f"{w}{reg()}" if rng.randrange(2) else str(rng.choice(CONSTANTS))
            lines.append(f"{w}{reg()} {rng.choice(OPERATORS)} {x}")
        elif kind == 4:
            form = rng.choice(UNARY)
            lines.append(form.replace("6", reg()) if not any(b in form for b in ("16", "64")) else form)
        elif kind == 5:
            bits = rng.choice((8, 16, 32, 64))
            lines.append(f"*(u{bits} *)(r10 - {rng.randrange(8, 33)}) = {rng.choice(['r' + reg(), str(rng.choice(CONSTANTS))])}")
        elif kind == 6:
            bits = rng.choice((8, 16, 32))
            lines.append(f"r{reg()} = *({rng.choice('us')}{bits} *)(r10 - {rng.randrange(4, 33)})")
        elif kind == 7:
            lines.append(rng.choice(ATOMIC).replace("r7", "r" + rng.choice("6789")))
        elif kind == 8:
            x = f"{w}{reg()}" if rng.randrange(2) else str(rng.choice(CONSTANTS))
            inner = []
            if depth:
                body(rng, depth - 1, inner, last)
            inner.append(f"r{reg()} += 3")
            lines.append(f"if {w}{reg()} {rng.choice(TESTS)} {x} goto +{len(inner)}")
            lines.extend(inner)
        elif last is not None and depth == 2:
            lines += ["r1 = r6", "r2 = r7", "r3 = r0", f"call {last}", "r0 += r8"]


def random_program(rng):
    """A program of random statements in the text of the assembly language, with a function that it may call."""
    frame = "\n".join(f"*(u64 *)(r10 - {at}) = {rng.choice(CONSTANTS)}" for at in (8, 16, 24, 32))
    main, helper = [], []
    body(rng, 2, main, "helper")
    body(rng, 1, helper, None)
    loop = f"*(u64 *)(r10 - 40) = 0\nloop: r1 = *(u64 *)(r10 - 40)\nr6 ^= r1\nr6 *= 31\nr1 += 1\n*(u64 *)(r10 - 40) = r1\nif r1 < {rng.randrange(2, 40)} goto loop\n"
    text = f"{HEAD}r8 = r2\nr9 = -1\nr0 = r6\n{frame}\n" + "\n".join(main) + "\n" + (loop if rng.randrange(2) else "") + "r0 ^= r6\nr0 += r9\nexit\n"
    return text + f"helper: r6 = r1\nr7 = r2\nr8 = r3\nr9 = 5\nr0 = r1\n{frame}\n" + "\n".join(helper) + "\nr0 ^= r7\nr0 += r9\nexit\n"


def long_programs():
    """Programs of several parts: jumps ahead and back from part to part, a wide instruction over two, calls from part to part."""
    step = "r6 *= 31\nr6 ^= 5\n"
    yield HEAD + step * 511 + "r6 += 1\nr8 = 0x123456789abcdef0 ll\n" + "r6 += r8\n" * 600 + END
    ahead = "".join(f"if r7 & {1 << i} goto a{i}\n" + step * 400 + f"a{i}: r6 += {i}\n" for i in range(8))
    yield HEAD + ahead + END
    far = "r8 = 0\nagain: r8 += 1\n" + step * 700 + "r1 = r6\ncall far\nr6 = r0\nif r8 < 3 goto again\n"
    yield HEAD + far + END + step * 900 + "far: r6 = r1\n" + step * 1200 + "r1 = r6\ncall farther\nexit\n" + step * 300 + "farther: r0 = r1\nr0 += 7\nexit\n"


class Runner:
    def __init__(self, bpf, folder):
        self.bpf, self.folder, self.count = bpf, folder, 0

    def run(self, *words):
        return subprocess.run([self.bpf, *map(str, words)], capture_output=True, text=True, timeout=120)

    def done(self, *words):
        got = self.run(*words)
        if got.returncode != 0:
            raise SystemExit(f"to-c: `bpf {' '.join(map(str, words))}` says {got.stdout}{got.stderr}")
        return got.stdout

    def name(self, ending):
        self.count += 1
        return self.folder / f"{self.count}.{ending}"


@dataclasses.dataclass(frozen=True)
class Asked:
    """A program as text or image, its flags, and contexts; the certificate, else one is sought for contexts of so many bytes; and the answers that are
    wanted, else those of `run`."""

    program: str | bytes
    flags: list
    contexts: list
    length: int = 0
    certificate: bytes | None = None
    answers: list | None = None


def case_of(runner, number, asked):
    """A program as C, with the answers that are wanted on contexts; None where there is no certificate."""
    name = f"f{number}"
    source, image, cert, out = (runner.folder / f"{name}.{e}" for e in ("s", "img", "cert", "c"))
    if isinstance(asked.program, bytes):
        image.write_bytes(asked.program)
    else:
        source.write_text(asked.program)
        runner.done("asm", source, image, *asked.flags)
    if asked.certificate is not None:
        cert.write_bytes(asked.certificate)
    elif runner.run("infer", image, asked.length, cert, "--deep", *asked.flags).returncode != 0:
        return None
    runner.done("to-c", image, cert, out, "--name", name, *asked.flags)
    if asked.answers is not None:
        return name, asked.contexts, asked.answers
    given = runner.folder / f"{name}.contexts"
    given.write_text("".join((c.hex() or "none") + "\n" for c in asked.contexts))
    said = runner.done("run", image, "--contexts", given, "--steps", STEPS, *asked.flags)
    return name, asked.contexts, [line.split()[1] for line in said.splitlines()]


def program_of(folder, cases):
    """One file of C with all cases: it tells each answer that isn't the wanted one, and then how many it tried."""
    parts = ["#include <stdio.h>\n#include <stdlib.h>\n"]
    parts += [f'#include "{folder}/{name}.c"\n' for name, _, _ in cases]
    parts.append("typedef uint64_t function(const uint8_t *, uint64_t);\nstruct row { const char *name; function *f; const char *context; size_t length; uint64_t wanted; };\n"
                 "static const struct row rows[] = {\n")
    for name, contexts, answers in cases:
        for context, answer in zip(contexts, answers, strict=True):
            text = "".join(f"\\x{b:02x}" for b in context)
            parts.append(f'{{"{name}", {name}, "{text}", {len(context)}, UINT64_C({answer})}},\n')
    parts.append("};\nint main(void)\n{\n    size_t bad = 0, i, count = sizeof rows / sizeof rows[0];\n    for (i = 0; i < count; i++) {\n"
                 "        uint8_t *context = malloc(rows[i].length ? rows[i].length : 1);\n        uint64_t got;\n        if (!context) return 2;\n"
                 "        memcpy(context, rows[i].context, rows[i].length);\n        got = rows[i].f(context, rows[i].length);\n        free(context);\n"
                 '        if (got != rows[i].wanted && bad++ < 20) printf("%s on context %zu: %llu, not %llu\\n", rows[i].name, i, (unsigned long long)got, (unsigned long long)rows[i].wanted);\n'
                 "    }\n")
    for name, contexts, _ in cases[:1]:
        parts.append(f"    if ({name}_takes({name}_MOST + 1) || {name}(0, {name}_MOST + 1) != 0 || !{name}_takes({name}_LEAST) || {name}_BOUND == 0) bad++;\n")
    parts.append('    printf("%zu of %zu\\n", count - bad, count);\n    return bad != 0;\n}\n')
    return "".join(parts)


def built(runner, compiler, flags, source):
    """What a build of a file says, or why there is none."""
    program = runner.folder / f"{source.stem}.{compiler}{'.'.join(flags[:2])}.out".replace("=", "").replace(",", "")
    made = subprocess.run([compiler, *STRICT, "-Wno-overlength-strings", *flags, "-o", program, source], capture_output=True, text=True)
    if made.returncode != 0:
        return f"{compiler} {' '.join(flags)}: {made.stderr[:2000]}"
    got = subprocess.run([program], capture_output=True, text=True)
    program.unlink()
    return None if got.returncode == 0 else f"{compiler} {' '.join(flags)}: {got.stdout[-2000:]}{got.stderr[:2000]}"


def tried(runner, compilers, number, cases):
    """Compiles cases in each way; the faults."""
    source = runner.folder / f"batch{number}.c"
    source.write_text(program_of(runner.folder, cases))
    faults = [built(runner, compiler, flags, source) for compiler in compilers for flags in BUILDS]
    return [f"{fault} (in {source})" for fault in faults if fault]


def in_rows(bpf):
    """The checked runs of tests/rows that end, with the answers that the rows say."""
    for case in (case for path in sorted(ROOT.glob("tests/rows/*.rows")) for case in rows.cases_of(path)):
        steps = [step for step in case.steps if len(step) == 4]
        if not any(step[0][0] == "run-checked" and step[3].startswith("done ") for step in steps):
            continue
        with tempfile.TemporaryDirectory(prefix="bpf-to-c-") as room:
            for name, data in case.files.items():
                (Path(room) / name).write_bytes(data)
            for words, given, _, said in steps:
                rows.images_made(bpf, room, words, case.files)
                rows.call(bpf, room, words, case.files[given] if given else b"")
                yield from run_in(Path(room), words, said)


def run_in(room, words, said):
    """What a row asks for, where it is a checked run, not over a capture, and each of its contexts is answered by a number."""
    answers = [line.removeprefix("done ") for line in said.splitlines()]
    if words[0] != "run-checked" or "-" in words or "--packets" in words or not all(it.isdigit() for it in answers):
        return
    if "--contexts" in words:
        lines = (room / words[words.index("--contexts") + 1]).read_text().splitlines()
        contexts = [b"" if line in ("", "none") else bytes.fromhex(line) for line in lines]
    else:
        contexts = [rows.context_of(room, words)]
    image, cert = (room / it for it in [it for it in words[1:] if it != "--big"][:2])
    # What a row says otherwise than is so, rows.py tells.
    if len(contexts) == len(answers) and image.exists() and cert.exists():
        flags = ["--big"] if "--big" in words else []
        yield Asked(image.read_bytes(), flags, contexts, certificate=cert.read_bytes(), answers=answers)


def natural_programs():
    """The programs of tests/natural that the compiler which is there makes images of, hardened."""
    with tempfile.TemporaryDirectory(prefix="bpf-to-c-") as name:
        for source in sorted(natural.SOURCES.glob("*.c")):
            size, image = int(re.search(r"context (\d+)", source.read_text())[1]), Path(name) / source.stem
            if natural.ran(ROOT / "examples/c/bpf-cc", source, image, "-w").returncode != 0:
                continue
            got = natural.certified(image, size, Path(name))
            if got is not None:
                contexts = [bytes.fromhex(line) for line in natural.contexts(source.stem, size)]
                yield Asked(got[0].read_bytes(), [], contexts, certificate=got[1].read_bytes())


def asked_for(bpf, rng, count):
    """The programs that are tried."""
    pairs = [(a, b) for a in EDGES for b in EDGES]
    for flags in ([], ["--big"]):
        order = "big" if flags else "little"
        for text in forms():
            some = pairs if "7\n" in text else [(a, a) for a in EDGES]
            yield Asked(text, flags, [a.to_bytes(8, order) + b.to_bytes(8, order) for a, b in rng.sample(some, min(len(some), 60))], LENGTH)
        for text in long_programs():
            yield Asked(text, flags, [rng.randbytes(LENGTH) for _ in range(20)], LENGTH)
    for number in range(count):
        yield Asked(random_program(rng), [["--big"], []][number % 2], [rng.randbytes(LENGTH) for _ in range(8)], LENGTH)
    for image in sorted(ROOT.glob("examples/*.img")) + sorted(ROOT.glob("examples/c/*.img")):
        for length in (64, 128):
            yield Asked(image.read_bytes(), [], [rng.randbytes(length) for _ in range(20)] + [bytes(length)], length)
    yield from in_rows(bpf)
    yield from natural_programs()


NAMES = {"f": 0, "Port_80": 0, "a" * 25: 0, "a" * 26: 2, "": 2, "_f": 2, "8f": 2, "f-g": 2, "while": 2, "main": 2, "typeof": 2}


def names_judged(runner):
    """What is wrong with the names that are taken and refused; a refused one leaves OUT as it was."""
    image, cert, out = ROOT / "examples/countdown.img", ROOT / "examples/countdown.cert", runner.folder / "named.c"
    for name, status in NAMES.items():
        out.write_text("old")
        ended = runner.run("to-c", image, cert, out, "--name", name).returncode
        if ended != status or (out.read_text() == "old") != (status != 0):
            yield f"--name '{name}' has status {ended}, not {status}, or OUT isn't as it is to be"


def main():
    bpf = os.path.abspath(sys.argv[1])
    count = int(sys.argv[2]) if len(sys.argv) > 2 else 40
    seed = int(sys.argv[3]) if len(sys.argv) > 3 else 1
    compilers = [c for c in ("gcc", "clang") if shutil.which(c)]
    if not compilers:
        print("to-c: no compiler of C is there")
        return 0
    with tempfile.TemporaryDirectory() as folder, ThreadPoolExecutor(os.cpu_count()) as pool:
        runner = Runner(bpf, Path(folder))
        made = list(pool.map(lambda x: case_of(runner, *x), enumerate(asked_for(bpf, random.Random(seed), count))))
        cases = [case for case in made if case]
        batches = [cases[i:i + BATCH] for i in range(0, len(cases), BATCH)]
        faults = [fault for found in pool.map(lambda b: tried(runner, compilers, *b), enumerate(batches)) for fault in found]
        faults += names_judged(runner)
    for fault in faults:
        print(fault, file=sys.stderr)
    print(f"to-c: {len(cases)} programs of {len(made)} are certified, {sum(len(c[1]) for c in cases)} runs by {', '.join(compilers)}: {len(faults)} faults")
    return 1 if faults or len(cases) < len(made) // 2 else 0


if __name__ == "__main__":
    sys.exit(main())

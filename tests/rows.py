#!/usr/bin/env python3
"""rows.py BPF [FILE..]: goes at the built command with the examples of tests/rows, each a case with its files, its commands and
what they say:

    === what it shows
    --- p.asm
    r0 = 0
    exit
    --- p.cert
    bpfcert 1 0 2
    fn 0 1 *
    at 0 2
    end
    $ bpf check p.img p.cert
    yes length 0 bound 2
    $ bpf run-checked p.img p.cert none
    done 0

What stands before a file's first case is there for all of its cases. `--- NAME hex` gives bytes in hexadecimal, `07 * 4096` on a
line a byte so many times; `--- NAME cut` is a text whose last line has no LF. p.img is assembled from p.asm where a command names it
first (in the big order if that command has --big). A command's words are a shell's (`''` is an empty one), `< NAME` behind them
gives it a file as standard input, and `=> N` behind all is its status, which else is 0. The lines below are what it must write,
where `<=N` stands for a number up to N and a line `...` for any lines. `+++ NAME` or `+++ NAME hex` is a file as the commands so far
must have left it, and `+++ NAME none` one that isn't there.

What is checked is checked again with its certificate as version 2, and judged again as a program where the command took a view of
the image: `list` refuses what `groups` does, and `run-checked` what `check` does. A checked run that ends, with a bound of up to
LONGEST, is made on the plain machine of flat.py too, wherever all lies and whatever is free there. Where `follows` says yes, the new
program is run beside the old one: what the old one ends with on the plain machine, wherever memory lies far, that ends with."""

import os
import random
import re
import shlex
import subprocess
import sys
import tempfile
from concurrent.futures import ThreadPoolExecutor

import flat

HERE = os.path.dirname(os.path.abspath(__file__))
LONGEST = 100_000


MARKS = ("=== ", "--- ", "+++ ", "$ bpf ")


class Case:
    """What one example says: its files, and in order its commands (words, standard input, status, what is written) and the files that
    they leave (name, bytes or None)."""

    def __init__(self, place, shows, files):
        self.place, self.shows, self.files, self.steps = place, shows, dict(files), []


def bytes_of(kind, lines):
    while lines and not lines[-1].strip():
        lines = lines[:-1]
    if kind == "hex":
        parts = [line.partition("*") for line in lines]
        return b"".join(bytes.fromhex(part) * int(times or 1) for part, _, times in parts)
    text = "".join(line + "\n" for line in lines)
    return (text[:-1] if kind == "cut" else text).encode()


def cases_of(path):
    """The cases of a file, in order."""
    with open(path, encoding="utf-8") as it:
        lines = it.read().split("\n")
    shared, cases, case, at = {}, [], None, 0
    while at < len(lines):
        line, start = lines[at], at + 1
        at += 1
        if line.startswith("=== "):
            case = Case(f"{os.path.basename(path)}:{start}", line[4:].strip(), shared)
            cases.append(case)
            continue
        if not line.startswith(MARKS):
            assert not line.strip() or case is None and line.startswith("#"), f"{path}:{start}: neither a file, a command nor a case: {line}"
            continue
        body = []
        while at < len(lines) and not lines[at].startswith(MARKS):
            body.append(lines[at])
            at += 1
        name, _, kind = line[4:].partition(" ")
        if line.startswith("--- "):
            (shared if case is None else case.files)[name] = bytes_of(kind.strip(), body)
        elif line.startswith("+++ "):
            case.steps.append((name, None if kind == "none" else bytes_of(kind, body)))
        else:
            case.steps.append(command_of(line[6:], bytes_of("", body).decode()))
    return cases


def command_of(line, wanted):
    words, _, status = line.partition(" => ")
    words, _, given = words.partition(" < ")
    return shlex.split(words), given.strip(), int(status or 0), wanted


def call(bpf, room, words, given=b""):
    ran = subprocess.run([bpf, *words], cwd=room, input=given, capture_output=True, timeout=60)
    return ran.returncode, (ran.stdout + ran.stderr).decode(errors="replace")


def images_made(bpf, room, words, files):
    """Assembles the images that the command names and that only their texts are there for."""
    for name in words if words[0] != "asm" else []:
        text = re.sub(r"\.img$", ".asm", name)
        if text in files and name.endswith(".img") and not os.path.exists(f"{room}/{name}"):
            status, said = call(bpf, room, ["asm", *(["--big"] if "--big" in words else []), text, name])
            if status:
                return f"assembling {text}: {said}"
    return ""


def context_of(room, words):
    """The context that a run is given, or None where it isn't one of these ways."""
    if "--notes" in words:
        at = words.index("--notes")
        words = words[:at] + words[at + 2:]
    if "--context" in words:
        with open(f"{room}/{words[words.index('--context') + 1]}", "rb") as it:
            return it.read()
    spelled = words[-1]
    return None if "--contexts" in words or "--packets" in words else b"" if spelled == "none" else bytes.fromhex(spelled)


def plain_runs(_, room, words, said):
    """What the plain machine answers otherwise than this checked run did."""
    context = context_of(room, words) if said.startswith("done ") else None
    if context is None:
        return ""
    image, text = [it for it in words[1:] if it != "--big"][:2]
    with open(f"{room}/{image}", "rb") as it:
        code = it.read()
    with open(f"{room}/{text}", encoding="ascii") as it:
        bound = int(it.readline().split()[-1])
    for placement in flat.PLACEMENTS if bound <= LONGEST else []:
        found = flat.run(code, "--big" in words, context, placement, bound)
        if found != int(said.split()[1]):
            return f"on the plain machine with {placement}: {found}"
    return ""


def migrated(bpf, room, words, said):
    """What a check says otherwise of the certificate as version 2."""
    text = words[-1]
    if "-" in words or call(bpf, room, ["migrate", text, f"{text}.2"])[0]:
        return ""
    again = call(bpf, room, [*words[:-1], f"{text}.2"])[1]
    return "" if again == said else f"of the certificate as version 2 it said:\n{again}"


def judged_as_program(bpf, room, words, said):
    """What is said otherwise of the program than of the view of its image: by `list` behind `groups`, by `run-checked` behind `check`."""
    if "-" in words:
        return ""
    promise = re.match(r"yes length (\d+)(?:\.\.\d+)? bound (\d+)", said)
    if promise and int(promise[2]) > LONGEST:
        return ""
    length = int(promise[1]) if promise else 0
    behind = {"groups": ["list", *words[1:]], "check": ["run-checked", *(it for it in words[1:] if it != "--work"), "00" * length or "none"]}
    again = call(bpf, room, behind[words[0]])[1]
    agreed = again == said if said.startswith("no ") else not again.startswith("no ")
    return "" if agreed else f"of the program it said:\n{again}"


def is_wanted(said, wanted):
    """Whether it is what was wanted, with numbers up to those behind `<=`, and any lines where one is `...`."""
    form = re.sub(r"<=\d+", r"(\\d+)", re.escape(wanted))
    form = re.sub(r"^\\.\\.\\.\\\n", r"(?:.*\\n)*?", form, flags=re.M)
    found = re.fullmatch(form, said)
    limits = re.findall(r"<=(\d+)", wanted)
    return bool(found) and all(int(it) <= int(most) for it, most in zip(found.groups(), limits))


def packets_of(length, padded, big):
    """Some contexts of a length, each with what an old program is given of it: all, or in blocks the packet."""
    rng = random.Random(length)
    contexts = [bytes(length), b"\xff" * length, bytes(at & 255 for at in range(length))]
    contexts += [bytes(rng.choice([0, 1, at & 7, rng.randrange(256)]) for at in range(length)) for _ in range(5)]
    room = length - 8
    if not padded:
        return [(context, context) for context in contexts]
    told = [room, 0, room // 2, room + 1, 1 << 40, room, 1 % (room + 1), room]
    blocks = [count.to_bytes(8, "big" if big else "little") + context[8:] for count, context in zip(told, contexts)]
    return [(block, block[8:8 + min(count, room)]) for count, block in zip(told, blocks)]


def kept_meaning(bpf, room, words, said):
    """What the new program answers otherwise than the old one, of which notes show that it keeps the meaning of all runs, or of those with so few turns."""
    promise = re.fullmatch(r"yes length (\d+) turns (\d+|any) bound (\d+)( padded)?\n", said)
    if not promise or "-" in words or int(promise[1]) > 256:
        return ""
    big, padded = "--big" in words, bool(promise[4])
    old, new, _, certificate = [it for it in words[1:] if it != "--big"]
    with open(f"{room}/{old}", "rb") as it:
        code = it.read()
    for context, given in packets_of(int(promise[1]), padded, big):
        wanted = flat.far_answer(code, big, given, 8 if padded else 0, *([] if promise[2] == "any" else [int(promise[2])]))
        answer = call(bpf, room, ["run-checked", *(["--big"] if big else []), new, certificate, context.hex() or "none"])[1]
        if wanted is not None and answer != f"done {wanted}\n":
            return f"on {context.hex()} the old program ends with {wanted} wherever memory lies far, and the new one says: {answer}"
    return ""


AGAIN = {"follows": [kept_meaning], "check": [migrated, judged_as_program], "groups": [judged_as_program], "run-checked": [plain_runs]}


def failure_at(bpf, room, files, step):
    """What a step says otherwise than is so, or nothing."""
    if len(step) == 2:
        name, wanted = step
        path = f"{room}/{name}"
        found = None
        if os.path.exists(path):
            with open(path, "rb") as it:
                found = it.read()
        return "" if found == wanted else f"{name} holds {found}, in place of {wanted}"
    words, given, status, wanted = step
    failed = images_made(bpf, room, words, files)
    ended, said = call(bpf, room, words, files[given] if given else b"")
    if ended != status or not is_wanted(said, wanted):
        failed = failed or f"status {ended}, and it said:\n{said}in place of status {status} and:\n{wanted}"
    for more in AGAIN.get(words[0], []) if not failed else []:
        failed = failed or more(bpf, room, words, said)
    return failed and f"$ bpf {' '.join(words)}\n{failed}"


def failure_of(bpf, case):
    """What a case says otherwise than the command does, or nothing."""
    with tempfile.TemporaryDirectory(prefix="bpf-rows-") as room:
        for name, data in case.files.items():
            with open(f"{room}/{name}", "wb") as it:
                it.write(data)
        for step in case.steps:
            failed = failure_at(bpf, room, case.files, step)
            if failed:
                return f"{case.place}: {case.shows}\n{failed}"
    return ""


def main(bpf, paths):
    rows = f"{HERE}/rows"
    paths = paths or [f"{rows}/{name}" for name in sorted(os.listdir(rows)) if name.endswith(".rows")]
    cases = [case for path in paths for case in cases_of(path)]
    with ThreadPoolExecutor(os.cpu_count()) as pool:
        failures = [it for it in pool.map(lambda case: failure_of(os.path.abspath(bpf), case), cases) if it]
    for it in failures:
        print(it)
    print(f"{len(cases)} examples, {sum(len(it.steps) for it in cases)} commands and files, {len(failures)} otherwise than they say")
    return 1 if failures or not cases else 0


if __name__ == "__main__":
    sys.exit(main(sys.argv[1], sys.argv[2:]))

#!/usr/bin/env python3
"""Whether documents that list refusals list those that there are.

The table is that of crates/bpf_refusals/specs/Letters.antt: a letter, and what its refusals say by number. A document that lists a letter
has each of its numbers, and none beyond the last. Where a line of a document has the sentence of a refusal, it has its number, too."""
import pathlib
import re
import sys

ROOT = pathlib.Path(__file__).resolve().parent.parent
SPECS = "crates/bpf_refusals/specs/Letters.antt"

# Which letters a document lists: in rows of a table (`| E4 |`), or anywhere.
LISTS = {
    "docs/bpf.1": "ABCEFHIKMNP",
    "docs/INSTRUCTIONS.md": "E",
    "docs/MACHINE.md": "F",
    "docs/ASSEMBLY.md": "A",
    "docs/CERTIFICATES.md": "K",
    "docs/CHECKER.md": "C",
    "docs/CLASSIC.md": "B",
    "docs/COMMAND.md": "INP",
    "docs/HARDENING.md": "HMN",
}


def lists():
    """From the name of a list of the specs to its sentences, from number 1 on, and the name of the list in front of them, if there is one."""
    found = {}
    for path in sorted(ROOT.glob("crates/*/specs/*.antt")):
        for name, body in re.findall(r"^abbrev pub (\w+_texts) : List \(List ℕ\)\n\1 =\n((?:    .*\n)+)", path.read_text(), re.M):
            front = re.match(r"    (\w+_texts)\n", body)
            found[name] = front and front[1], re.findall(r'codes "([^"]*)"', body)
    return found


def table():
    """From a letter to what its refusals say, from number 1 on."""
    text, known = (ROOT / SPECS).read_text(), lists()

    def said(name):
        front, sentences = known[name]
        return [*(said(front) if front else []), *sentences]

    codes = dict(re.findall(r"^code_of (\w+) = (\d+)$", text, re.M))
    names = dict(re.findall(r"^texts_of (\w+) = (\w+)$", text, re.M))
    assert codes.keys() == names.keys() and len(codes) == 11, (codes, names)
    return {chr(int(code)): said(names[letter]) for letter, code in codes.items()}


def numbers_in(text, letter):
    """The numbers that stand behind a letter, also those of `E2 to E7` between."""
    found = {int(number) for number in re.findall(rf"(?<![\w.]){letter}([0-9]+)\b", text)}
    for first, last in re.findall(rf"\b{letter}([0-9]+) to {letter}([0-9]+)\b", text):
        found.update(range(int(first), int(last) + 1))
    return found


def missing(name, letters, refusals):
    """What a document lacks, and what it has beyond."""
    text = (ROOT / name).read_text()
    rows = "".join(re.findall(r"^\|.*\n", text, re.M))
    for letter in letters:
        there = set(range(1, len(refusals[letter]) + 1))
        has = numbers_in(rows if re.search(rf"^\| {letter}1 \|", text, re.M) else text, letter)
        yield from (f"{name} lacks {letter}{number}" for number in sorted(there - has))
        yield from (f"{name} has {letter}{number}, which isn't there" for number in sorted(numbers_in(text, letter) - there))


def unnumbered(name, refusals):
    """The lines of a document that have a sentence without a number that says it."""
    says = {}
    for letter, sentences in refusals.items():
        for number, sentence in enumerate(sentences, 1):
            says.setdefault(sentence, []).append(f"{letter}{number}")
    for at, line in enumerate((ROOT / name).read_text().splitlines(), 1):
        for sentence, numbers in says.items():
            if len(sentence) > 24 and sentence in line and not any(re.search(rf"\b{number}\b", line) for number in numbers):
                yield f"{name}:{at}: `{sentence}` is said by {' and '.join(numbers)}"


def main():
    refusals = table()
    faults = [fault for name, letters in LISTS.items() for fault in missing(name, letters, refusals)]
    faults += [fault for path in sorted(ROOT.glob("docs/*.md")) for fault in unnumbered(path.relative_to(ROOT), refusals)]
    empty = [f"{letter}{number}" for letter, said in refusals.items() for number, it in enumerate(said, 1) if not it]
    faults += [f"{it} says nothing" for it in empty]
    count = sum(map(len, refusals.values()))
    print("\n".join(faults) or f"the documents list the refusals that there are: {count}, of the letters {''.join(refusals)}")
    return bool(faults)


if __name__ == "__main__":
    sys.exit(main())

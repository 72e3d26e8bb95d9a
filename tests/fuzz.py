"""fuzz.py BPF EXAMPLES SECONDS SEED: alters images, texts and certificates, runs the command on them, and asserts that

- each answer has a known form, and the status that goes with it;
- a yes keeps its word: on random contexts of its lengths `run` is done within the bound, and `run-checked` with the same number;
- what is listed assembles to the same image, in both byte orders;
- what is proposed is certified or refused by number, and what is written reads back;
- a new image that follows an old one by notes ends with its number on random contexts.
"""
import os
import pathlib
import random
import re
import subprocess
import sys
import tempfile
import time

INTERESTING = [0, 1, 2, 7, 8, 15, 16, 63, 64, 127, 128, 255, 256, 4095, 4096, 4097, 65535, 65536, 2**31 - 1, 2**31, 2**32 - 1, 2**32, 2**40, 2**40 + 1, 2**63 - 1, 2**63, 2**64 - 1, 2**64]

SLOT = r'\d+'
FORMS = {
    'groups': {0: r'(base|divmul|atomic)( (divmul|atomic))*\n', 1: rf'no E\d+ at slot {SLOT}\n'},
    'list': {0: r'[^\0]+\n', 1: rf'no E\d+ at slot {SLOT}\n'},
    'asm': {0: '', 1: rf'no A[1-57] at line \d+\n|no A6 at line \d+ \(E\d+ at slot {SLOT}\)\n'},
    'infer': {0: '', 1: rf'no E\d+ at slot {SLOT}\n|no I[1235] at slot {SLOT}\n|no I4 \(C\d+\) at slot {SLOT}\n'},
    'check': {0: r'yes length \d+(\.\.\d+)? bound \d+\n', 1: rf'no E\d+ at slot {SLOT}\n|no K[1-4] at line \d+\n|no C\d+ at slot {SLOT}\n'},
    'run': {0: r'done \d+ steps \d+\n', 1: rf'no E\d+ at slot {SLOT}\n|fault F[1-9] at slot {SLOT} steps \d+\n|out of fuel\n'},
    'run-checked': {0: r'done \d+\n', 1: rf'no E\d+ at slot {SLOT}\n|no K[1-4] at line \d+\n|no C\d+ at slot {SLOT}\n|no context of \d+ bytes, want \d+(\.\.\d+)?\n'},
    'migrate': {0: '', 1: r'no K[1-4] at line \d+\n'},
    'explain': {0: r'[^\0]+\n', 1: r'[^\0]+\n'},
    'harden': {0: '', 1: rf'no E\d+ at slot {SLOT}\n|no H\d+ at slot {SLOT}\n'},
    'follows': {0: r'yes length \d+ turns (\d+|any) bound \d+( padded)?( untouched \d+)?\n',
                1: rf'no E\d+ of (OLD|NEW) at slot {SLOT}\n|no N1 at line \d+\n|no K[1-4] at line \d+\n|no C\d+ at slot {SLOT}\n|no M([1-9]|10) at slot {SLOT}\n'},
}
ERRORS = {2: r'bad hex\n|context too long\n|most below least\n|words that don\'t go together\n|error: [^\0]*', 3: r'cannot (read|write) [^\n]*\n|no memory\n'}


class Wrong(Exception):
    pass


class Runner:
    def __init__(self, command, folder):
        self.command, self.folder = command, folder
        self.runs = 0

    def path(self, name):
        return os.path.join(self.folder, name)

    def put(self, name, data):
        with open(self.path(name), 'wb') as f:
            f.write(data)
        return name

    def get(self, name):
        with open(self.path(name), 'rb') as f:
            return f.read()

    def bpf(self, *words):
        self.runs += 1
        done = subprocess.run([self.command, *words], cwd=self.folder, capture_output=True, timeout=60)
        out, err = done.stdout.decode('utf-8', 'replace'), done.stderr.decode('utf-8', 'replace')
        form = FORMS[words[0]].get(done.returncode)
        if form is not None:
            if not re.fullmatch(form, out) or err:
                raise Wrong(f'{words}: status {done.returncode}, {out!r}, {err!r}')
        elif not re.fullmatch(ERRORS.get(done.returncode, r'(?!)'), err):
            raise Wrong(f'{words}: status {done.returncode}, {out!r}, {err!r}')
        return done.returncode, out


def altered_bytes(r, data):
    data = bytearray(data)
    for _ in range(r.choice([1, 1, 1, 2, 3, 8])):
        if not data:
            return bytes(data)
        at = r.randrange(len(data))
        kind = r.randrange(6)
        if kind == 0:
            data[at] ^= 1 << r.randrange(8)
        elif kind == 1:
            data[at] = r.choice([0, 1, 7, 0x7f, 0x80, 0xff, r.randrange(256)])
        elif kind == 2:
            data[at:at] = bytes(r.randrange(256) for _ in range(r.choice([1, 8, 8, 16])))
        elif kind == 3:
            del data[at:at + r.choice([1, 8, 8, 16])]
        elif kind == 4:
            at -= at % 8
            data[at:at] = data[at:at + 8]
        else:
            other = r.randrange(len(data))
            other, here = other - other % 8, at - at % 8
            data[here:here + 8], data[other:other + 8] = data[other:other + 8], data[here:here + 8]
    return bytes(data)


def altered_text(r, text):
    lines = text.split('\n')
    for _ in range(r.choice([1, 1, 2, 3])):
        at = r.randrange(len(lines))
        kind = r.randrange(8)
        if kind == 0:
            lines.insert(at, lines[at])
        elif kind == 1:
            del lines[at]
        elif kind == 2 and len(lines) > 1:
            other = r.randrange(len(lines))
            lines[at], lines[other] = lines[other], lines[at]
        elif kind == 3:
            numbers = list(re.finditer(r'\d+', lines[at]))
            if numbers:
                m = r.choice(numbers)
                new = r.choice(INTERESTING + [int(m.group()) + 1, max(0, int(m.group()) - 1)])
                lines[at] = lines[at][:m.start()] + str(new) + lines[at][m.end():]
        elif kind == 4:
            words = lines[at].split(' ')
            words[r.randrange(len(words))] = r.choice(['', '*', 'r3', 's1', 'exit', '-0', '00', 'u0..1', 'ctx0..0', 'fp-8..0', 'b7', '+1*r6', '+1*(9-s2)', 'x'])
            lines[at] = ' '.join(words)
        elif kind == 5 and lines[at]:
            where = r.randrange(len(lines[at]))
            lines[at] = lines[at][:where] + chr(r.randrange(1, 127)) + lines[at][where + 1:]
        elif kind == 6:
            lines[at] = lines[at] * r.choice([2, 20])
        else:
            lines = lines[:at + 1] if r.random() < 0.3 else lines
        lines = lines or ['']
    return '\n'.join(lines)


def hex_of(data):
    return data.hex() if data else 'none'


def holds_word(run, r, image, certificate, order, answer):
    """A yes: done within the bound on contexts of its lengths, by both runs with one number."""
    least, most, bound = re.fullmatch(r'yes length (\d+)(?:\.\.(\d+))? bound (\d+)\n', answer).groups()
    least, bound = int(least), int(bound)
    most = int(most) if most else least
    for _ in range(2):
        context = hex_of(bytes(r.randrange(256) for _ in range(r.choice([least, most, r.randint(least, most)]))))
        if bound > 10**7:
            continue
        status, ran = run.bpf('run', *order, image, context, '--steps', str(bound))
        checked = run.bpf('run-checked', *order, image, certificate, context)[1]
        if status != 0 or ran.split()[1] != checked.split()[1]:
            raise Wrong(f'{answer!r}: {ran!r}, {checked!r} on {context}')


def try_image(run, r, image, order, certificates):
    name = run.put('i.img', image)
    status, listing = run.bpf('list', *order, name)
    if run.bpf('groups', *order, name)[0] != status:
        raise Wrong('groups and list differ')
    if run.bpf('explain', *order, name)[0] != status:
        raise Wrong('explain and list differ')
    run.bpf('run', *order, name, hex_of(bytes(r.randrange(256) for _ in range(r.choice([0, 1, 16])))), '--steps', '1000')
    if status != 0:
        return
    run.put('l.asm', listing.encode())
    run.bpf('asm', *order, 'l.asm', 'l.img')
    if run.get('l.img') != image:
        raise Wrong('the listing assembles to another image')
    run.put('l.asm', run.bpf('list', *order, *r.choice([['--slots'], ['--bytes'], ['--slots', '--bytes']]), name)[1].encode())
    run.bpf('asm', *order, 'l.asm', 'l.img')
    if run.get('l.img') != image:
        raise Wrong('the listing with comments assembles to another image')
    length = str(r.choice([0, 1, 4, 16, 64]))
    inferred = run.bpf('infer', *order, name, length, 'o.cert')[0]
    if inferred == 0:
        certificates = [*certificates, run.get('o.cert').decode()]
    if run.bpf('explain', *order, name, '--infer', length)[0] != inferred:
        raise Wrong('explain and infer differ')
    for text in r.sample(certificates, min(2, len(certificates))) + certificates[-1:]:
        try_certificate(run, r, name, text, order)


def try_certificate(run, r, image, text, order):
    name = run.put('c.cert', text.encode('latin-1'))
    status, answer = run.bpf('check', *order, image, name)
    if status == 0:
        holds_word(run, r, image, name, order, answer)
    for more in ([], ['--slot', str(r.randrange(20))]):
        if run.bpf('explain', *order, image, name, *more)[0] != status:
            raise Wrong(f'explain and check differ: {answer!r}')
    if 'migrate' in FORMS and run.bpf('migrate', name, 'm.cert')[0] == 0:
        again, migrated = run.bpf('check', *order, image, 'm.cert')
        if (again, migrated) != (status, answer):
            raise Wrong(f'migrated: {answer!r}, {migrated!r}')


def try_followed(run, r, image, order):
    """An image that is hardened, and the new one and the notes as they are or altered: where the notes still show that it keeps the meaning,
    it does on random contexts."""
    old, length = run.put('i.img', image), r.choice([0, 1, 4, 16, 64, 128])
    if run.bpf('harden', *order, old, str(length), 'n.img', '--unproved', '--notes', 'n.notes', '--certificate', 'n.cert')[0] != 0:
        return 0
    if r.random() < 0.7:
        run.put('n.img', altered_bytes(r, run.get('n.img')))
        if r.random() < 0.5 and run.bpf('infer', '--deep', *order, 'n.img', str(length), 'a.cert')[0] == 0:
            run.put('n.cert', run.get('a.cert'))
    if r.random() < 0.7:
        run.put('n.notes', altered_text(r, run.get('n.notes').decode()).encode('latin-1'))
    status, said = run.bpf('follows', *order, old, 'n.img', 'n.notes', 'n.cert')
    if status != 0 or not re.fullmatch(rf'yes length {length} turns (65536|any) bound \d+\n', said):
        return 0
    for _ in range(4):
        context = hex_of(bytes(r.choice([0, 1, r.randrange(256)]) for _ in range(length)))
        status, before = run.bpf('run', *order, old, context, '--steps', '60000')
        after = run.bpf('run', *order, 'n.img', context, '--steps', '1000000')[1]
        if status == 0 and before.split()[1] != after.split()[1]:
            raise Wrong(f'the new image follows, and on {context} {before!r} before, {after!r} after')
    return 1


def try_each_alteration(run, image, text):
    """Each image that differs from the smallest one in one byte: where its certificate still certifies it, it is done within the bound.
    So it is with any other constant, and with a 32-bit move."""
    name, certificate = run.put('i.img', image), run.put('c.cert', text.encode())
    accepted = 0
    for at in range(len(image)):
        for byte in set(range(256)) - {image[at]}:
            run.put(name, image[:at] + bytes([byte]) + image[at + 1:])
            status, answer = run.bpf('check', name, certificate)
            if status == 0:
                accepted += 1
                if run.bpf('run', name, 'none', '--steps', answer.split()[-1])[0] != 0:
                    raise Wrong(f'byte {at} as {byte}: {answer!r}, and the run is not done')
    if accepted != 4 * 255 + 1:
        raise Wrong(f'{accepted} alterations of the smallest image are certified')
    print(f'fuzz: {255 * len(image)} alterations of the smallest image, {accepted} of them certified, each done within the bound')


def main():
    command, examples, seconds, seed = sys.argv[1], pathlib.Path(sys.argv[2]), float(sys.argv[3]), int(sys.argv[4])
    r = random.Random(seed)
    images = [p.read_bytes() for p in sorted(examples.glob('*.img'))]
    filters = [p.read_bytes() for p in sorted(examples.glob('c/*.img'))]
    texts = [p.read_text() for p in sorted(examples.glob('*.asm'))]
    certificates = [p.read_text() for p in sorted(examples.glob('*.cert'))]
    turns = followed = 0
    with tempfile.TemporaryDirectory() as folder:
        run = Runner(command, folder)
        try_each_alteration(run, (examples / 'smallest.img').read_bytes(), (examples / 'smallest.cert').read_text())
        end = time.time() + seconds
        while time.time() < end:
            turns += 1
            order = r.choice([[], [], ['--big']])
            kind = r.randrange(4)
            try:
                if kind == 0:
                    try_image(run, r, altered_bytes(r, r.choice(images)), order, certificates)
                elif kind == 1:
                    run.put('t.asm', altered_text(r, r.choice(texts)).encode('latin-1'))
                    status = run.bpf('asm', *order, 't.asm', 't.img')[0]
                    if run.bpf('explain', '--text', *order, 't.asm')[0] != status:
                        raise Wrong('explain and asm differ')
                    if status == 0:
                        try_image(run, r, run.get('t.img'), order, certificates)
                elif kind == 2:
                    followed += try_followed(run, r, r.choice(images + filters), [])
                else:
                    at = r.randrange(len(certificates))
                    name = run.put('i.img', r.choice(images))
                    try_certificate(run, r, name, altered_text(r, certificates[at]), order)
            except Wrong as wrong:
                kept = tempfile.mkdtemp(prefix='bpf-fuzz-')
                for entry in os.listdir(folder):
                    pathlib.Path(kept, entry).write_bytes(pathlib.Path(folder, entry).read_bytes())
                print(f'fuzz: seed {seed}, turn {turns}: {wrong}\nfuzz: files in {kept}')
                return 1
    print(f'fuzz: seed {seed}, {turns} turns, {run.runs} runs of the command, {followed} new images that follow, no wrong answer')
    return 0


if __name__ == '__main__':
    sys.exit(main())

"""hosts.py BPF EXAMPLES FOLDER: holds what FOLDER/hosts (hosts.c), filter_c and filter_rs answer to what the command answers."""
import pathlib
import random
import re
import resource
import struct
import subprocess
import sys

import classic
import filters as made_for
import refusals
import rows

BPF, EXAMPLES, FOLDER = sys.argv[1], pathlib.Path(sys.argv[2]), pathlib.Path(sys.argv[3])
HOSTS = FOLDER / 'hosts'
ROWS = pathlib.Path(__file__).resolve().parent / 'rows'
CONTEXTS = ['none', '2a', '00' * 4, bytes(range(16)).hex(), '01' * 64, 'ff' * 4096]
FUELS = [0, 1, 5, 1000]

# Images that are refused: E1 to E8.
NO_IMAGES = {
    'empty': '',
    'cut': 'b700000000000000 95000000',
    'opcode': 'ff00000000000000',
    'register': 'b70b000000000000 9500000000000000',
    'unused': 'b700000000000000 9510000000000000',
    'selector': 'd700000011000000 9500000000000000',
    'truncated': '1800000000000000',
    'left-out': '8500000001000000 9500000000000000',
    'target': '0500050000000000 9500000000000000',
}

# Programs of which runs end otherwise, F1 to F9, and for which no certificate is proposed.
TEXTS = {
    'f1': 'r0 = r3\nexit\n',
    'f2': 'r0 = *(u64 *)(r10 - 8)\nexit\n',
    'f3': 'r0 = *(u8 *)(r1 + 9)\nexit\n',
    'f4': '*(u8 *)(r1 + 0) = 1\nr0 = 0\nexit\n',
    'f5': 'r10 = 0\nexit\n',
    'f6': 'r1 *= 2\nr0 = 0\nexit\n',
    'f7': 'call -1\nexit\n',
    'f8': 'r0 = 0\n',
    'f9': 'r0 = r1\nexit\n',
    'endless': 'goto -1\n',
    'order': 'r0 = 0x1122334455667788 ll\n*(u64 *)(r10 - 8) = r0\nr0 = *(u16 *)(r10 - 8)\nexit\n',
}

ALU = ['+=', '-=', '*=', '|=', '&=', '<<=', '>>=', '^=', '=', 's>>=']
CONDITIONS = ['==', '!=', '>', '>=', '<', '<=', 's>', 's>=', 's<', 's<=', '&']


def every_instruction():
    """A program with each operation, test, access and byte swap, each of which tells on the number at its end."""
    lines = ['r6 = *(u32 *)(r1 + 0)', 'r7 = 0x1234567890abcdef ll', 'r6 *= r7', 'r7 = *(u8 *)(r1 + 3)', 'r7 += 3', 'r0 = 1']
    for r in ['r', 'w']:
        for op in ALU:
            lines += [f'{r}8 = {r}6', f'{r}8 {op} 3', 'r0 ^= r8', f'{r}8 = {r}6', f'{r}8 {op} {r}7', 'r0 += r8', 'r0 *= 31']
        for op in ['/=', '%=', 's/=', 's%=']:
            lines += [f'{r}8 = {r}6', f'{r}8 {op} 3', 'r0 ^= r8', f'{r}8 {op} {r}7', 'r0 += r8']
        for condition in CONDITIONS:
            lines += [f'if {r}6 {condition} 5 goto +1', 'r0 += 7', f'if {r}7 {condition} {r}6 goto +1', 'r0 *= 3']
    for bits in [8, 16, 32, 64]:
        lines += [f'*(u{bits} *)(r10 - {bits}) = r6', f'r8 = *(u{bits} *)(r10 - {bits})', 'r0 ^= r8', 'r0 *= 31']
        lines += [f'*(u{bits} *)(r10 - {bits}) = -2', f'r8 = *(u{bits} *)(r10 - {bits})', 'r0 += r8']
    for bits in [16, 32, 64]:
        for swap in ['le', 'be', 'bswap']:
            lines += ['r8 = r6', f'r8 = {swap}{bits} r8', 'r0 ^= r8', 'r0 *= 31']
    return '\n'.join([*lines, 'r1 = r0', 'call +1', 'exit', 'r0 = r1', 'r0 >>= 1', 'exit']) + '\n'


SMALLEST = 'bpfcert 1 0 2\nfn 0 1 *\nat 0 2\nend\n'

# A program and a certificate for each refusal K1 to K3 and C1 to C13.
CERTIFIED = {
    'k1': ('r0 = 0\nexit\n', 'bpfcert 1 0 2\nfn 0 1 *\nat 0 2\n'),
    'k2': ('r0 = 0\nexit\n', 'bpfcert 1 0 2\nfn 0 1 *\nat 0 02\nend\n'),
    'k3': ('r0 = 0\nexit\n', 'bpfcert 1 4097 2\nfn 0 1 *\nat 0 2\nend\n'),
    'c0': ('r0 = 0\nexit\n', SMALLEST),
    'c1': ('goto +0\nexit\n', SMALLEST),
    'c2': ('r0 = 0x5 ll\nexit\n', 'bpfcert 1 0 2\nfn 0 1 *\nat 0 2\nat 1 2\nend\n'),
    'c3': ('r0 = r3\nexit\n', SMALLEST),
    'c4': ('r0 = r1\nexit\n', 'bpfcert 1 0 2\nfn 0 1 *\nat 0 2\nr1 ctx0..0\nend\n'),
    'c5': ('r0 = *(u8 *)(r1 + 3)\nexit\n', 'bpfcert 1 3 2\nfn 0 1 *\nat 0 2\nr1 ctx0..0\nend\n'),
    'c6': ('r0 = *(u64 *)(r10 - 8)\nexit\n', SMALLEST),
    'c7': ('r10 = 0\nexit\n', SMALLEST),
    'c8': ('r0 = 0\nexit\n', 'bpfcert 1 0 2\nfn 0 1 u1..1\nat 0 2\nend\n'),
    'c9': ('r0 = 0\nexit\n', 'bpfcert 1 0 2\nfn 0 1 *\nat 0 1\nend\n'),
    'c10': ('call -1\nexit\n', SMALLEST),
    'c11': ('r0 = 0\n', SMALLEST),
    'c12': ('call +0\nexit\n', SMALLEST),
    'c13': ('r0 = 0\nexit\n', 'bpfcert 1 0 2\nfn 0 1 *\nat 0 2\nr3 *\nend\n'),
}

KINDS = {f'{letter}{number}' for letter, first, last in [('B', 1, 7), ('C', 1, 13), ('E', 1, 8), ('F', 1, 9), ('H', 14, 14), ('I', 2, 4), ('K', 1, 3)] for number in range(first, last + 1)}


def bpf(*words):
    done = subprocess.run([BPF, *map(str, words)], capture_output=True, text=True, timeout=60)
    return done.returncode, done.stdout + done.stderr


def made(name, data):
    path = FOLDER / name
    path.write_bytes(data)
    return path


def assembled(name, text):
    image = {}
    for order in ['little', 'big']:
        image[order] = FOLDER / f'{name}.{order}.img'
        status, out = bpf('asm', *big(order), made(f'{name}.asm', text.encode()), image[order])
        assert status == 0, (name, out)
    return image


def big(order):
    return ['--big'] if order == 'big' else []


class Table:
    """Lines for hosts, and the command's answers to the same."""

    def __init__(self):
        self.lines, self.wants, self.words, self.made, self.sentences = [], [], {}, [], {}

    def add(self, want, *words):
        self.lines.append(' '.join(map(str, words)))
        self.wants.append(f'{want[0]} {want[1].rstrip()}')

    def check(self, order, image, certificate):
        self.add(bpf('check', *big(order), image, certificate), 'check', order, image, certificate)

    def run(self, order, image, context, fuel):
        self.add(bpf('run', *big(order), image, context, '--steps', fuel), 'run', order, image, context, fuel)

    def run_checked(self, order, image, certificate, context):
        self.add(bpf('run-checked', *big(order), image, certificate, context), 'run-checked', order, image, certificate, context)

    def follows(self, order, old, new, notes, certificate):
        self.add(bpf('follows', *big(order), old, new, notes, certificate), 'follows', order, old, new, notes, certificate)

    def traps(self, order, image, notes, context, fuel):
        self.add(bpf('run', *big(order), image, context, '--steps', fuel, '--notes', notes), 'traps', order, image, notes, context, fuel)

    def certify(self, order, image, size, bound=1000000, turns=0, padded=0, unproved=0):
        """What is certified, and where the image and its certificate stand of both."""
        here, there = FOLDER / f'{len(self.lines)}.here', FOLDER / f'{len(self.lines)}.there'
        words = ['--bound', bound, *(['--turns', turns] if turns else []), *(['--padded'] if padded else []), *(['--unproved'] if unproved else [])]
        done = subprocess.run([BPF, 'certify', *big(order), image, str(size), f'{there}.img', f'{there}.cert', *map(str, words)], capture_output=True, text=True, timeout=60)
        self.add((done.returncode, done.stdout), 'certify', order, image, size, bound, turns, padded, unproved, f'{here}.img', f'{here}.cert')
        self.made += [(f'{here}.{kind}', f'{there}.{kind}') for kind in ('img', 'cert')]

    def convert(self, order, filter, form, size):
        """What is converted, and where the image and its certificate stand of both; the command takes the instructions in the image's order."""
        here, there = FOLDER / f'{len(self.lines)}.here', FOLDER / f'{len(self.lines)}.there'
        raw = {key: made(f'{here.name}.{key}', b''.join(struct.pack(key + 'HBBI', *it) for it in filter)) for key in '=<>'}
        words = [raw['>' if order == 'big' else '<'], str(size), f'{there}.img', f'{there}.cert', '--raw', *classic.FORMS[form]]
        done = subprocess.run([BPF, 'convert', *big(order), *words], capture_output=True, text=True, timeout=60)
        self.add((done.returncode, done.stdout), 'convert', order, raw['='], [*classic.FORMS].index(form), size, f'{here}.img', f'{here}.cert')
        self.made += [(f'{here}.{kind}', f'{there}.{kind}') for kind in ('img', 'cert')]
        if done.returncode:
            self.sentences.setdefault(done.stdout.split()[1], set()).add(done.stderr)

    def alone(self, image, certificate, context):
        self.add(bpf('run-checked', image, certificate, context), 'alone', 'little', image, len(context) // 2, context)

    def infer(self, order, image, least, most):
        here, there = FOLDER / f'{len(self.lines)}.here', FOLDER / f'{len(self.lines)}.there'
        self.add(bpf('infer', *big(order), image, least, there, '--most', most), 'infer', order, image, least, most, here)
        return here, there

    def explain(self, order, image, certificate=None, search=None, slot=None, graph=False, lines=None):
        """Explains an image alone, with a certificate, or by a search, which is least, most and deep; the words go to a file, and the command's are kept."""
        here, words, question = FOLDER / f'{len(self.lines)}.words', [], []
        if certificate:
            words, question = [certificate], [certificate]
        if search:
            least, most, deep = search
            words = ['--infer', least, '--most', most, *(['--deep'] if deep else [])]
            question = [least, most, int(deep)]
        words += ['--dot'] if graph else ['--slot', slot] if slot is not None else []
        words += ['--lines', lines] if lines else []
        done = subprocess.run([BPF, 'explain', *big(order), image, *map(str, words)], capture_output=True, timeout=60)
        aspect = 2 if graph else 1 if slot is not None else 0
        self.words[here] = done.stdout
        self.add((done.returncode, ''), 'explain', order, image, aspect, slot or 0, lines or 'none', here, *question)

    def compare(self):
        done = subprocess.run([HOSTS, 'table'], input='\n'.join(self.lines) + '\n', capture_output=True, text=True, timeout=120)
        assert done.returncode == 0 and not done.stderr, (done.returncode, done.stderr)
        got = [line.rstrip() for line in done.stdout.splitlines()]
        wants = [want.rstrip() for want in self.wants]
        wrong = [row for row in zip(self.lines, got, wants) if row[1] != row[2]]
        assert len(got) == len(wants) and not wrong, wrong[:5]
        seen = {kind for line in got for kind in re.findall(r'(?:no|fault) ([A-Z]\d+)', line)}
        assert KINDS <= seen, sorted(KINDS - seen)
        assert any(line.endswith(' trap') for line in got)
        for here, words in self.words.items():
            assert words and here.read_bytes() == words, (here, self.lines[int(here.stem)])
        for here, there in map(lambda pair: map(pathlib.Path, pair), self.made):
            assert here.exists() == there.exists() and (not there.exists() or here.read_bytes() == there.read_bytes()), here
        return len(got)


def fill_follows(table, images):
    """Pairs of images with notes and a certificate: what harden made, with its own and with others, and what is none."""
    none, zero = made('none.notes', b'no notes\n'), EXAMPLES / 'length.cert'
    for name in ['every', 'order', *(path.stem for path in EXAMPLES.glob('*.asm'))]:
        for order in ['little', 'big']:
            old = images[f'{name}.text'][order]
            for padded in [0, 1]:
                new, notes, certificate = (FOLDER / f'{name}.{order}.{padded}.{what}' for what in ['new', 'notes', 'certificate'])
                words = ['--padded'] if padded else []
                if bpf('harden', *big(order), '--unproved', *words, old, 16, new, '--notes', notes, '--certificate', certificate)[0]:
                    continue
                said = notes.read_bytes()
                for was, other in [(b'', b''), (b' length 16 ', b' length 15 '), (b' turns 65536 ', b' turns 1 '), (b' untouched 0', b' untouched 512')]:
                    changed = made(f'{name}.{order}.{padded}.{len(table.lines)}', said.replace(was, other, 1))
                    table.follows(order, old, new, changed, certificate)
                table.follows(order, old, old, notes, certificate)
                for context in ['none', 'c8' + '00' * 15, *CONTEXTS[3:4]]:
                    for fuel in [5, 1000]:
                        table.traps(order, new, notes, context, fuel)
                        table.traps(order, old, notes, context, fuel)
                table.traps(order, new, none, 'none', 9)
                table.follows(order, old, new, none, certificate)
                table.follows(order, old, new, notes, none)
                table.follows(order, old, new, notes, zero)
    for name in NO_IMAGES:
        table.follows('little', images[name]['little'], images['order.text']['little'], none, none)
        table.traps('little', images[name]['little'], made('empty.notes', b'bpfnotes 2 length 0 turns 7 untouched 0\n'), 'none', 9)
        table.follows('little', images['order.text']['little'], images[name]['little'], none, none)


def fill_certify(table, images):
    """Images that stand as they are, that are hardened, and that aren't: for the greatest number of turns and for some, as blocks and not, with bounds that are too small."""
    for name in ['every.text', 'order.text', *(f'{name}.text' for name in TEXTS), *(f'{path.stem}.text' for path in EXAMPLES.glob('*.asm'))]:
        for order in ['little', 'big']:
            for wish in [{}, {'bound': 1}, {'bound': 40}, {'turns': 3}, {'padded': 1}, {'unproved': 1}, {'turns': 9, 'padded': 1, 'unproved': 1}]:
                table.certify(order, images[name][order], 16, **wish)
    for name in NO_IMAGES:
        table.certify('little', images[name]['little'], 16)


def fill_convert(table):
    """Filters of every instruction, some of them faulty, in each form; none at all, as many as may be, and one more."""
    rng = random.Random(1)
    for seed in range(600):
        form = rng.choice([*classic.FORMS])
        size = rng.choice({'blocks': [8, 9, 40, 200, 1522, 4096], 'plain': [0, 1, 34, 64, 4096], 'seccomp': [64], 'extended': [72, 73, 200, 1586, 4096]}[form])
        table.convert(rng.choice(['little', 'big']), classic.random_filter(rng, form), form, size)
    for count in [0, 1, 4096, 4097]:
        table.convert('little', [(6, 0, 0, 1)] * count, 'blocks', 128)
    # An index and a cell in each of as many instructions as may be, all of them labelled: the longest certificates that are known.
    steps = [(0x61, 0, 0, 15), (0x48, 0, 0, 14), (0x1D, 1, 0, 0), (0x7C, 0, 0, 0), (0x02, 0, 0, 7)]
    cells = [it for cell in range(16) for it in [(0x60, 0, 0, cell), (0x03, 0, 0, cell)]]
    table.convert('big', cells + (steps * 900)[:4096 - len(cells) - 2] + [(0x16, 0, 0, 0)] * 2, 'blocks', 4096)
    for filter, form in [([(0x20, 0, 0, 0xfffff000), (6, 0, 0, 1)], 'blocks'), ([(0x28, 0, 0, 0), (6, 0, 0, 1)], 'seccomp'), ([(0x20, 0, 0, 4), (6, 0, 0, 1)], 'seccomp'),
                         ([(0x20, 0, 0, 0xfffff00c), (6, 0, 0, 1)], 'extended'), ([(0x20, 0, 0, 0xfffff02c), (6, 0, 0, 1)], 'extended')]:
        table.convert('little', filter, form, 72 if form == 'extended' else 64)


def fill(table):
    images = {path.stem: {'little': path, 'big': path} for path in sorted(EXAMPLES.glob('*.img'))}
    certificates = sorted(EXAMPLES.glob('*.cert'))
    for name, text in [*TEXTS.items(), ('every', every_instruction()), *[(path.stem, path.read_text()) for path in sorted(EXAMPLES.glob('*.asm'))]]:
        images[f'{name}.text'] = assembled(name, text)
    for name, data in NO_IMAGES.items():
        path = made(f'{name}.img', bytes.fromhex(data))
        images[name] = {'little': path, 'big': path}
    proposals = []
    for image in images.values():
        for order in ['little', 'big']:
            for certificate in certificates:
                table.check(order, image[order], certificate)
            for context in CONTEXTS:
                for fuel in FUELS:
                    table.run(order, image[order], context, fuel)
            for least, most in [(0, 0), (4, 4), (16, 16), (0, 4096), (16, 64), (3, 2)]:
                proposals.append((order, image[order], *table.infer(order, image[order], least, most)))
    for name, (text, certificate) in CERTIFIED.items():
        image = assembled(name, text)
        for order in ['little', 'big']:
            table.check(order, image[order], made(f'{name}.cert', certificate.encode()))
            table.run_checked(order, image[order], FOLDER / f'{name}.cert', 'none')
    for name in NO_IMAGES:
        table.explain('little', images[name]['little'])
        table.explain('big', images[name]['big'], certificates[0])
        table.explain('little', images[name]['little'], search=(0, 0, True))
    for name, (text, certificate) in CERTIFIED.items():
        for order in ['little', 'big']:
            image = {'order': order, 'image': FOLDER / f'{name}.{order}.img', 'certificate': FOLDER / f'{name}.cert'}
            table.explain(**image)
            table.explain(**image, slot=1)
            table.explain(**image, graph=True)
    for name in [*(f'{name}.text' for name in TEXTS), *(path.stem for path in EXAMPLES.glob('*.img'))]:
        for order in ['little', 'big']:
            image = images[name][order]
            table.explain(order, image)
            table.explain(order, image, graph=True)
            for search in [(0, 0, False), (0, 0, True), (16, 64, False), (16, 64, True)]:
                table.explain(order, image, search=search)
                table.explain(order, image, search=search, slot=0)
                table.explain(order, image, search=search, graph=True)
    lines = made('source.lines', ''.join(f'{slot} port.c:{slot + 1} line {slot};\n' for slot in range(40)).encode())
    for path in sorted((EXAMPLES / 'c').glob('*.img')):
        for keys in [{'certificate': path.with_suffix('.cert')}, {'search': (128, 128, True)}, {'search': (8, 8, True)}]:
            table.explain('little', path, **keys, lines=lines)
            table.explain('little', path, **keys, slot=9, lines=lines)
            table.explain('little', path, **keys, graph=True)
    fill_follows(table, images)
    fill_certify(table, images)
    fill_convert(table)
    for filter_of in [made_for.port, made_for.dns, made_for.checksum, made_for.histogram, made_for.rate, made_for.http]:
        path = EXAMPLES / f'c/{filter_of.__name__}.img'
        for context, _ in filter_of(random.Random(1)):
            table.alone(path, path.with_suffix('.cert'), context.hex())
    for order, image, here, there in proposals:
        if there.exists():
            table.check(order, image, there)
            for context in CONTEXTS:
                table.run_checked(order, image, there, context)
    return proposals


def runs_of(case, words, room):
    """The image, the contexts in hex and the steps that a command of an example runs, or None where it names other things."""
    names = [it for it in words[1:] if it != '--big']
    given = dict(zip(names, names[1:]))
    steps = given.get('--steps', '')
    failed = rows.images_made(BPF, room, words, case.files)
    if failed or not (room / names[0]).is_file() or not steps.isdecimal() or int(steps) >> 32:
        return None
    if '--context' in given:
        contexts = [case.files.get(given['--context'], b'').hex() or 'none']
    elif '--contexts' in given:
        contexts = case.files.get(given['--contexts'], b'').decode().split()
    else:
        contexts = names[1:2]
    return room / names[0], contexts, steps


def fill_with_rows(table):
    """The runs of the examples in tests/rows: the command decodes a program, and the library runs a view of its image."""
    for number, case in enumerate(case for path in sorted(ROWS.glob('*.rows')) for case in rows.cases_of(path)):
        room = FOLDER / f'rows-{number}'
        room.mkdir()
        for name, data in case.files.items():
            (room / name).write_bytes(data)
        for words in [step[0] for step in case.steps if len(step) == 4 and step[0][0] == 'run']:
            found = runs_of(case, words, room)
            for context in found[1] if found else []:
                order = 'big' if '--big' in words else 'little'
                if re.fullmatch(r'none|(?:[0-9a-f]{2}){1,4096}', context):
                    table.run(order, found[0], context, found[2])


def texts(sentences):
    """What hosts are told of a refusal is what the table says, I4 and H7 apart from the condition that they name; of a filter it is also what the command says
    on standard error."""
    done = subprocess.run([HOSTS, 'texts'], capture_output=True, text=True, timeout=60, check=True)
    told = {}
    for line in done.stdout.splitlines():
        number, _, text = line.partition(' ')
        told.setdefault(number[0], []).append(text)
        assert number[1:] == str(len(told[number[0]])), line
    want = refusals.table()
    assert told == want, (told, want)
    for number, said in sentences.items():
        assert all(told['B'][int(number[1:]) - 1] in it for it in said), (number, said)


def told(words, limit=None, **env):
    """What FOLDER/memory (memory.c) tells of each call, within a limit of memory in bytes: its answer and what it wrote; None where it didn't get to main."""
    def limited():
        if limit:
            resource.setrlimit(resource.RLIMIT_AS, (limit, limit))
    done = subprocess.run(words, capture_output=True, text=True, timeout=100, preexec_fn=limited, env=env)
    begun, _, lines = done.stdout.partition('begun\n')
    if limit and done.returncode and not done.stdout:
        return None
    assert done.returncode == 0 and begun == '', (words, limit, done.returncode, done.stdout, done.stderr)
    return dict(line.split(' ', 1) for line in lines.splitlines())


def allocators():
    """With a host's own allocator, linked in or preloaded, each call answers as with the C library's, and keeps no block where a growth is refused."""
    port = [EXAMPLES / 'c/port.img', EXAMPLES / 'c/port.cert', '128', '128']
    usual = told([FOLDER / 'memory', *port])
    assert len(usual) == 11 and all(it.startswith('1 ') for it in usual.values()), usual
    assert told([FOLDER / 'memory_own', *port]) == usual
    assert told([FOLDER / 'memory', *port], LD_PRELOAD=str(FOLDER / 'allocator.so')) == usual
    assert told([FOLDER / 'memory_own', 'refuse', *port]).keys() == {f'{name}:' for name in usual}


def limits():
    """Within a limit of memory each call has its answer or none: then nothing is written. A deep search that has too little leaves the plain one's."""
    lines = ['r0 = *(u8 *)(r1 + 0)', *(line for i in range(4000) for line in [f'if r0 > {i % 200} goto +1', 'r0 += 1', 'r0 &= 255']), 'exit']
    image, certificate = assembled('branches', '\n'.join(lines) + '\n')['little'], FOLDER / 'branches.cert'
    assert bpf('infer', image, 16, certificate)[0] == 0
    words = [FOLDER / 'memory', image, certificate, '16', '16']
    usual, nothing, seen = told(words), '-1 7 ', set()
    for megabytes in range(4, 64):
        found = told(words, megabytes << 20)
        if found is None:
            continue
        none = {answer for answer in found.values() if answer.startswith(nothing)}
        assert len(none) <= 1, found
        for name, answer in found.items():
            if name == 'certify' and answer.split()[:2] == ['1', str(image.stat().st_size + int(usual['infer'].split()[1]))]:
                # the image as it is, with the plain search's certificate
                continue
            whole = [usual[name], usual[{'search': 'infer', 'explain_search': 'explain_infer'}.get(name, name)]]
            assert answer in none or answer in whole, (megabytes, name, answer, whole)
            seen.add((name, answer in none))
    assert len(seen) == 2 * len(usual), sorted(seen)


def frames_of(data):
    at, frames = 24, []
    while at < len(data):
        (length,) = struct.unpack_from('<I', data, at + 8)
        frames.append(data[at + 16:at + 16 + length])
        at += 16 + length
    return frames


def block_of(frame, order, size):
    """The context that a host makes of a frame: its length in eight bytes, its beginning, zeros."""
    return (len(frame).to_bytes(8, order) + frame[:size - 8]).ljust(size, b'\0')


def answers(order, image, certificate, frames, size):
    """What the command says of the frames' blocks, in the words of the hosts."""
    want = ''
    for frame in frames_of(frames.read_bytes()):
        status, out = bpf('run-checked', *big(order), image, certificate, block_of(frame, order, size).hex())
        assert status == 0, out
        want += 'drop\n' if out == 'done 0\n' else 'accept\n'
    return want


def filters():
    frames, port, certificate = FOLDER / 'frames.pcap', EXAMPLES / 'c/port.img', EXAMPLES / 'c/port.cert'
    subprocess.run([FOLDER / 'filter_c', '--make', frames], check=True)
    want = answers('little', port, certificate, frames, 128)
    assert want.split() == ['accept', 'drop', 'drop', 'drop', 'accept', 'drop', 'accept', 'accept'], want
    # Frames of 64 bytes, in both orders, and in a block that most don't fit.
    length = assembled('length', 'r2 = *(u64 *)(r1 + 0)\nr0 = 0\nif r2 != 64 goto +1\nr0 = 1\nexit\n')
    for order in ['little', 'big']:
        assert bpf('infer', *big(order), length[order], 40, FOLDER / f'length.{order}.cert')[0] == 0
    slow = assembled('slow', 'r6 = 1000000\nr6 += -1\nif r6 != 0 goto -2\nr0 = 0\nexit\n')['little']
    assert bpf('infer', slow, 128, FOLDER / 'slow.cert')[0] == 0
    for name in ['filter_c', 'filter_rs']:
        def filtered(*words):
            done = subprocess.run([FOLDER / name, *words], capture_output=True, text=True, timeout=60)
            return done.returncode, done.stdout, done.stderr
        status, out, error = filtered(port, certificate, frames, '1000')
        assert (status, out) == (0, want) and error.startswith('4000 of 8000 frames accepted'), (name, out, error)
        for order in ['little', 'big']:
            proof = FOLDER / f'length.{order}.cert'
            status, out, error = filtered(*big(order), length[order], proof, frames)
            assert (status, out) == (0, answers(order, length[order], proof, frames, 40)) and out.count('accept') == 1, (name, order, out, error)
        for image, proof, words in [(port, EXAMPLES / 'countdown.cert', 'refused by C8 at slot 0: a state'),
                                    (slow, FOLDER / 'slow.cert', 'a run may take 2000003 instructions, and this host pays for 1000000 at most'),
                                    (EXAMPLES / 'countdown.img', EXAMPLES / 'countdown.cert', 'a context of 0 bytes has no room')]:
            status, out, error = filtered(image, proof, frames)
            assert status == 1 and out == '' and words in error, (name, out, error)


table = Table()
proposals = fill(table)
fill_with_rows(table)
count = table.compare()
for order, image, here, there in proposals:
    assert here.exists() == there.exists() and (not there.exists() or here.read_bytes() == there.read_bytes()), (order, image)
print(f'{count} answers are the command\'s, of each kind of refusal that bytes can have but I1, and so are the words of {len(table.words)} explanations')
checksum = assembled('sum', (EXAMPLES / 'checksum.asm').read_text())['little']
assert bpf('infer', checksum, 16, FOLDER / 'sum.cert')[0] == 0
for words in [['bad'], ['memory', checksum, FOLDER / 'sum.cert'], ['threads', checksum, FOLDER / 'sum.cert'], ['many', EXAMPLES / 'first-byte.img', EXAMPLES / 'first-byte.cert']]:
    done = subprocess.run([HOSTS, *words], capture_output=True, text=True, timeout=100)
    assert done.returncode == 0 and not done.stderr, (words, done)
allocators()
limits()
print("a host's own allocator, and limits of memory: the same answers, or none")
texts(table.sentences)
print('each refusal says to hosts what the crates say of it')
print('bad calls, refused memory, eight threads and a million runs: as they should be')
filters()
print('the filters in C and Rust answer as the command on each frame')

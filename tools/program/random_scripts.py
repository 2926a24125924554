"""Tests: 2,000 random scripts of one client's calls, by `sim`. Each prints the answers of a plain model (`plain_cell.py`), and nothing else."""
import collections
import functools
import itertools
import random

from plain_cell import LAST_PLACE, PlainCell
from running import differs, words_of

SCRIPTS = 2_000
# The scripts of one test.
RUN = 100
CELL = {'servers': 3, 'clients': 1, 'block': 16}
# The greatest number that a line may have.
GREATEST = (1 << 64) - 1

# What most name calls are on.
PATHS = ['/f', '/f', '/g', '/a', '/a', '/a/b', '/a/b/c']
# Names that are there from the beginning, or that no call makes.
ODD_PATHS = ['/', '/.gone', '/.gone/x', '/a/', 'a', '/x/y', '/a//b']
DIRECTORIES = ['/', '/', '/a', '/a/b', '/f']
# The chunks of files that are made with a shape, of which some fit.
CHUNKS = [64, 64, 80, 80, 72, 48]
NAME_CALLS = ['mkdir'] * 3 + ['create'] * 3 + ['open'] * 3 + ['rmdir'] + ['rename'] * 2 + ['list'] * 2
# What a script's word may have but the `*` of the short form.
PRINTABLE = [byte for byte in range(ord('!'), ord('~') + 1) if byte != ord('*')]
FILE_CALLS = ['append'] * 4 + ['write'] * 2 + ['length'] + ['read'] * 3

# How often each thing has to come to pass in a thousand scripts, so that they tell something.
COUNTED = 1_000
ENOUGH = {'done': 1_600, 'opened': 800, 'listed': 120, 'appended': 800, 'appended in later chunks': 200, 'lengths above 0': 400, 'bytes read': 600,
          'nothing read': 400, 'refused as too long': 200, 'refused otherwise': 800}


class CallSource:
    """Draws the calls of a script one after another, from its seed."""

    def __init__(self, seed):
        self.chance = random.Random(seed)
        # The bytes that a chunk may hold.
        self.size = self.chance.choice([64, 80])

    def happens(self, percent):
        return self.chance.randrange(100) < percent

    def pick(self, values, weights):
        return self.chance.choices(values, weights)[0]

    def call(self, descriptors):
        """The next call, where so many descriptors were opened: its name and what it is given."""
        if not descriptors and self.happens(85):
            return ('create', '/f') if self.happens(60) else ('open', '/f')
        if self.happens(80 if descriptors else 5):
            return self.file_call(descriptors)
        return self.name_call()

    def name_call(self):
        name = self.chance.choice(NAME_CALLS)
        path = self.chance.choice(PATHS if self.happens(85) else ODD_PATHS)
        if name == 'list':
            return name, self.chance.choice(DIRECTORIES)
        if name == 'rename':
            return name, path, self.chance.choice(PATHS)
        if name == 'create' and self.happens(30):
            return name, path, self.chance.choice(CHUNKS), self.chance.randint(0, 9)
        return name, path

    def file_call(self, descriptors):
        descriptor = self.chance.randint(1, max(1, descriptors)) if self.happens(95) else self.chance.randrange(descriptors + 3)
        if self.chance.randrange(30) == 0:
            return 'close', descriptor
        name = self.chance.choice(FILE_CALLS)
        if name == 'append':
            return name, descriptor, self.record()
        if name == 'write':
            return name, descriptor, self.offset(), self.bytes()
        if name == 'read':
            return name, descriptor, self.offset(), self.count()
        return name, descriptor

    def offset(self):
        """A place in one of the first chunks, mostly in the first one, and seldom a very great one."""
        index = self.pick([0, 1, self.chance.randrange(5)], [7, 2, 1])
        start = self.pick([0, self.chance.randrange(20), self.chance.randint(0, self.size)], [5, 3, 2])
        return self.pick([GREATEST, LAST_PLACE - 1, self.size * index + start], [1, 1, 48])

    def count(self):
        """Up to a chunk and more, seldom a very great count."""
        return self.pick([GREATEST, 0, self.chance.randrange(100), self.size, self.chance.randrange(20)], [1, 1, 2, 6, 40])

    def bytes(self):
        """Data of a write: a few bytes, seldom as many as a chunk and more."""
        return self.data(self.pick([self.chance.randrange(84), 0, self.chance.randrange(12)], [2, 1, 7]))

    def record(self):
        """A record, most times one that is not too long."""
        return self.data(self.pick([0, self.chance.randrange(30), self.size // 4, self.chance.randrange(17)], [1, 1, 6, 12]))

    def data(self, length):
        """So many equal bytes, or so many of any."""
        if self.happens(50):
            return bytes([self.chance.choice(PRINTABLE)]) * length
        return bytes(self.chance.choices(PRINTABLE, k=length))


def word_of(given):
    """The word of a script for a path, a number or data: of these more than three equal bytes, or none, in the short form."""
    if not isinstance(given, bytes):
        return str(given)
    if given and (len(given) <= 3 or len(set(given)) > 1):
        return given.decode()
    return f'{given[:1].decode() or "z"}*{len(given)}'


@functools.cache
def script_of(seed):
    """The chunk size of a script's cell, its lines, and the answers of the model."""
    source = CallSource(seed)
    cell = PlainCell(source.size, CELL['block'])
    lines, answers = [], []
    for _ in range(source.chance.randint(10, 20)):
        name, *given = source.call(len(cell.opened))
        lines.append(' '.join(['c1', name, *map(word_of, given)]))
        answers.append(cell.answer(name, *given))
    return source.size, lines, answers


def text_of(lines):
    return ''.join(line + '\n' for line in lines).encode()


def prints(seed, program):
    """The fault at the first line that is another one than the model's."""
    size, lines, answers = script_of(seed)
    script, wanted = text_of(lines), text_of('c1 ' + answer for answer in answers)
    words = ['sim', '-', *words_of({**CELL, 'chunk': size})]
    ran = program.run(words, script)
    told = f'seed {seed}, {" ".join(words)}\n{script.decode()}'
    pairs = itertools.zip_longest(ran.printed.split(b'\n'), wanted.split(b'\n'))
    for number, (found, right) in enumerate(pairs, 1):
        if found != right:
            return differs(f'{told}line {number} that is printed', found, right)
    return differs(f'{told}its status and fault', (ran.status, ran.told), (0, b''))


def all_print(seeds, program):
    """The first fault of these scripts, and how many have one."""
    faults = [fault for seed in seeds for fault in prints(seed, program)]
    return [f'{len(faults)} of the scripts of seeds {seeds.start} to {seeds.stop - 1} print something else, the first one of {faults[0]}'] if faults else []


def kind_of(answer):
    name, *rest = answer.split(' ')
    if name == 'names':
        # A new cell has one name.
        return 'listed' if int(rest[0]) > 1 else 'few names'
    if name == 'length':
        return 'lengths above 0' if int(rest[0]) else 'lengths of 0'
    if name == 'bytes':
        return 'bytes read' if int(rest[0]) else 'nothing read'
    if name == 'refused':
        return 'refused as too long' if rest[1] == 'TooLong' else 'refused otherwise'
    return {'done': 'done', 'fd': 'opened', 'at': 'appended'}[name]


def counts_of(seeds):
    """How often each thing came to pass."""
    counts = collections.Counter()
    for seed in seeds:
        size, _, answers = script_of(seed)
        counts.update(map(kind_of, answers))
        counts['appended in later chunks'] += sum(answer.startswith('at ') and int(answer[3:]) >= size for answer in answers)
    return counts


def is_enough(seeds, _program):
    counts = counts_of(seeds)
    return [f'by seeds {seeds.start} to {seeds.stop - 1} {kind}: {counts[kind]}, and {least} are wanted' for kind, least in ENOUGH.items()
            if counts[kind] < least]


def parts_of(count):
    """All seeds, so many at a time."""
    return [range(first, first + count) for first in range(0, SCRIPTS, count)]


def tests():
    """Each test's name, and what it is."""
    alike = [functools.partial(all_print, seeds) for seeds in parts_of(RUN)]
    enough = [functools.partial(is_enough, seeds) for seeds in parts_of(COUNTED)]
    return [('random_scripts', test) for test in alike + enough]

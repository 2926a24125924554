"""The words of a command line, as the program takes them (`crates/command_line`): what they ask for, and the help and the version that it prints.

Names of options, and what the help says of them, are read in the program's own source. `command_line/Asking.asked` says what words ask for."""
import difflib
import os
import re
from collections import namedtuple

TOP = os.path.dirname(os.path.dirname(os.path.dirname(os.path.abspath(__file__))))
SOURCE = os.path.join(TOP, 'crates', 'command_line', 'src', 'command.rt')
LONGEST_NUMBER = 20
LARGEST_BLOCK = 65536
# settings of 32 bits: what is greater becomes the greatest value, which is out of each range too
NARROW = ('chunk', 'block', 'goal', 'attempts', 'cache_entries', 'push_entries', 'slots', 'journal')
COUNTS = {'servers': 3, 'clients': 1}
MOST_NODES = 64
WAYS = ('sim', 'live', 'serve')

# the subcommand, its file, which `serve` has none of, each option with a number that is given, by its name, and each with a word
Asked = namedtuple('Asked', 'way file given words')
Texts = namedtuple('Texts', 'version about sim live serve options region keep words progress')


class Bad(Exception):
    """The words are no command line; with the cause, which the program doesn't tell."""


class Shown(Exception):
    """The words ask for this text."""


def text_of(path):
    with open(path, encoding='utf-8') as file:
        return file.read()


def texts():
    """What the program's source says of itself and of its options."""
    source = text_of(SOURCE)
    tables = [re.search(rf'const {name}: [^=]*= \[(.*?)\n?\];', source, re.S)[1] for name in ('OPTIONS', 'REGION', 'KEEP')]
    options, region, keep = [re.findall(r'\(\s*"([^"]+)",\s*"([^"]+)",?\s*\)', table) for table in tables]
    abouts = dict(re.findall(r'runner\(alloc, "(\w+)", "([^"]+)"\)', source))
    serve = re.search(r'Command::new\(alloc, "serve"\)\s*\.about\(\s*"([^"]+)"', source)[1]
    words = re.findall(r'word_option\(\s*alloc,\s*"([^"]+)",\s*"([^"]+)",\s*"([^"]+)"', source)
    progress = re.search(r'\(flag\(\s*alloc,\s*"([^"]+)",\s*"([^"]+)"', source).groups()
    version, about = re.search(r'\.version\("([^"]+)"\)\s*\.about\("([^"]+)"\)', source).groups()
    return Texts(version, about, abouts['sim'], abouts['live'], serve, options, region, keep, words, progress)


# ---- the help

def aligned(rows):
    """Rows of two columns."""
    width = max(len(first) for first, _ in rows)
    return ''.join(f'  {first:<{width}}  {second}\n' for first, second in rows)


def about_of(way):
    return getattr(texts(), way)


def program_help():
    said = texts()
    flags = [('-h, --help', 'Print help'), ('-V, --version', 'Print version')]
    return (f'{said.about}\n\nUsage: gfscell <COMMAND>\n\nCommands:\n{aligned([(way, about_of(way)) for way in WAYS])}'
            f'\nOptions:\n{aligned(flags)}')


def options_of(way):
    """The options of a subcommand that take a number, and what the help says of each."""
    said = texts()
    return said.options + (said.region if way == 'sim' else said.keep)


def words_of(way):
    """The options of a subcommand that take a word, with what the help calls it and what it says of each."""
    words = texts().words
    return words if way == 'live' else [row for row in words if way == 'serve' and row[0] == 'regions']


def flags_of(way):
    """The options of a subcommand that take none."""
    return [texts().progress] if way == 'live' else []


def subcommand_help(way):
    rows = [(f'    --{name} <N>', said) for name, said in options_of(way)] + [(f'    --{name} <{word}>', said) for name, word, said in words_of(way)]
    flags = rows + [(f'    --{name}', said) for name, said in flags_of(way)] + [('-h, --help', 'Print help')]
    file = '' if way == 'serve' else f'Arguments:\n{aligned([("<FILE>", "The script, or - for standard input")])}\n'
    return f'{about_of(way)}\n\nUsage: gfscell {way} [OPTIONS]{" <FILE>" if file else ""}\n\n{file}Options:\n{aligned(flags)}'


def version():
    return f'gfscell {texts().version}\n'


# ---- the words

def number(text):
    """A decimal number below 2^64 without sign, or None."""
    digits = text.lstrip('0')
    if not text.isascii() or not text.isdigit() or len(digits) > LONGEST_NUMBER or int(digits or '0') >= 1 << 64:
        return None
    return int(digits or '0')


def near(word, names):
    """The name that is meant, where one is near."""
    found = [name for name in names if name.lower() == word.lower()] or difflib.get_close_matches(word, names, 1, 0.7)
    return f'; did you mean {found[0]}?' if found else ''


class Words:
    """The walk over a subcommand's words. A value waits until the next word, as one that is given twice is only found then."""

    def __init__(self, way):
        self.way = way
        self.names = [name for name, _ in options_of(way)] + [name for name, _, _ in words_of(way)]
        self.flags = [name for name, _ in flags_of(way)]
        self.given = {}
        self.pending = None

    def settle(self):
        if self.pending is None:
            return
        name, value = self.pending
        self.pending = None
        if value is None:
            raise Bad(f'--{name}: its value is missing')
        if name in self.given:
            raise Bad(f'--{name} stands twice')
        self.given[name] = value

    def flag(self, name, value):
        if value is not None:
            raise Bad(f'--{name} takes no value')
        self.settle()
        if name in self.given:
            raise Bad(f'--{name} stands twice')
        self.given[name] = None

    def show_help(self):
        self.settle()
        raise Shown(subcommand_help(self.way))

    def long(self, name, value):
        if name == 'help':
            if value is not None:
                raise Bad('--help takes no value')
            self.show_help()
        if name in self.flags:
            self.flag(name, value)
            return
        if name not in self.names:
            raise Bad(f'no option --{name}{near("--" + name, ["--" + it for it in self.names + self.flags])}')
        self.settle()
        self.pending = (name, value)
        if value is not None:
            self.settle()

    def positional(self, word):
        if self.way == 'serve':
            raise Bad(f'{word}: serve takes no FILE')
        if 'FILE' in self.given or (self.pending and self.pending[0] == 'FILE'):
            raise Bad(f'{word}: FILE stands already')
        self.settle()
        self.pending = ('FILE', word)

    def take(self, word):
        if word.startswith('--') and word != '--':
            name, equals, value = word[2:].partition('=')
            self.long(name, value if equals else None)
        elif word.startswith('-') and word != '-':
            if word[1] != 'h':
                raise Bad(f'no option {word[:2]}')
            self.show_help()
        elif self.pending and self.pending[1] is None:
            self.pending = (self.pending[0], word)
        else:
            self.positional(word)

    def taken(self, words):
        """What all words give."""
        end = words.index('--') if '--' in words else len(words)
        for word in words[:end]:
            self.take(word)
        for word in words[end + 1:]:
            self.positional(word)
        self.settle()
        if 'FILE' not in self.given and self.way != 'serve':
            raise Bad('FILE is missing')
        return self.given


def subcommand(words):
    """The subcommand, which is the first word where the words ask for a run."""
    first = words[0] if words else ''
    if first in WAYS:
        return first
    if first == '--help' or re.match('-h', first):
        raise Shown(program_help())
    if first == '--version' or re.match('-V', first):
        raise Shown(version())
    raise Bad('sim, live or serve is missing')


def is_full_path(word):
    """Whether a word is a full path: a slash alone, or parts with a slash before each."""
    path = word.encode()
    parts = path[1:].split(b'/')
    return path == b'/' or (path[:1] == b'/' and len(path) <= 4096 and not re.search(rb'[\r\0]', path) and all(0 < len(it) < 256 and it not in (b'.', b'..') for it in parts))


def look_at_words(given, words):
    """Whether what is told of a run can be told; else Bad."""
    if 'keep' in given and words:
        raise Bad(f'--{next(iter(words))} stands beside --keep')
    if not is_full_path(words.get('regions', '/')):
        raise Bad(f'--regions: {words["regions"]} is no full path')


def parse(words):
    """What the words ask for; Shown, or Bad."""
    try:
        ''.join(words).encode()
    except UnicodeEncodeError:
        raise Bad('a word is no text') from None
    way = subcommand(words)
    given = Words(way).taken(words[1:])
    file = given.pop('FILE', None)
    given = {name: value for name, value in given.items() if value is not None}
    words = {name: given.pop(name) for name, _, _ in words_of(way) if name in given}
    for name, value in given.items():
        if number(value) is None:
            raise Bad(f'--{name}: {value} is no decimal number below 2^64')
    look_at_words(given, words)
    return Asked(way, file, {name.replace('-', '_'): number(value) for name, value in given.items()}, words)


def options_in(script):
    """The options that stand in a script's first comments, as `# --clients 2 --chunk 64`, with the line of each comment."""
    given = {}
    for place, line in enumerate(script.split(b'\n'), 1):
        if line and not line.startswith(b'#'):
            break
        if re.match(rb'# --[a-z]', line):
            try:
                given.update(parse(['sim', '-', *line[2:].decode('utf-8', 'surrogateescape').split()]).given)
            except (Bad, Shown) as fault:
                raise Bad(f'the options in line {place}: {fault}') from None
    return given


# ---- settings

def settings_of(given):
    """The counts of servers and clients, and each setting that is given, with the block's default."""
    counts = [given.get(name, default) for name, default in COUNTS.items()]
    settings = {name: min(value, 2 ** 32 - 1) if name in NARROW else value for name, value in given.items() if name not in (*COUNTS, 'names_heap', 'keep')}
    if 'block' not in settings and 'chunk' in settings:
        settings['block'] = min(settings['chunk'] & -settings['chunk'], LARGEST_BLOCK)
    return (*counts, settings)


def out_of_range(given):
    """The first option that no cell can have, in words, or None."""
    from cell import SETTINGS, check_settings
    servers, clients, settings = settings_of(given)
    for name, count in (('servers', servers), ('clients', clients)):
        if not 1 <= count <= MOST_NODES:
            return f'--{name}: 1 to {MOST_NODES}'
    wrong = check_settings({name: settings.get(name, default) for name, _, _, default in SETTINGS})
    if wrong is None:
        return None
    least, greatest = next((least, greatest) for name, least, greatest, _ in SETTINGS if name == wrong)
    more = {'chunk': ', a multiple of 16', 'block': ', which divides the chunk', 'skew_ms': ', below the lease'}
    return f'--{wrong.replace("_", "-")}: {least} to {greatest}{more.get(wrong, "")}'

"""Why a line of a script is bad, in words, which the program doesn't tell: the first cause in the order in which the line is read."""
from command_line import near
from script import ARGUMENTS, KINDS, LONGEST_LINE, BadLine, data, number, path_of

# the words behind the first of each line that is no call
LINES = {
    'start': 'cN CALL', 'finish': '', 'wait': 'MS', 'hold': 'KIND NODE', 'free': '', 'twice': 'KIND NODE', 'cut': 'NODE', 'join': 'NODE',
    'restart': 'NODE', 'rebase': '', 'fuse': 'NODE K T', 'rot': 'sN PATH INDEX PLACE BYTE', 'regions': 'PATH INDEX', 'replicas': 'PATH INDEX'}
CALLS = {
    'close': 'FD', 'length': 'FD', 'rename': 'PATH PATH', 'snapshot': 'PATH PATH', 'write': 'FD OFFSET DATA', 'append': 'FD DATA',
    'read': 'FD OFFSET LENGTH'}
UNKNOWN = 'it is not in the language'


def shown(word):
    return word.decode('utf-8', 'backslashreplace') if len(word) < 60 else word[:50].decode('utf-8', 'backslashreplace') + '..'


def is_refused(read, word):
    try:
        read(word)
        return False
    except BadLine:
        return True


def of_spaces(text):
    if text.endswith(b'\r'):
        return 'it ends in a carriage return'
    if text.startswith(b' ') or text.endswith(b' '):
        return f'a space at its {"beginning" if text.startswith(b" ") else "end"}'
    return 'two spaces between words' if b'  ' in text else None


def of_count(name, form, words):
    wanted = len(form.split())
    if len(words) == wanted:
        return None
    return f'{name} takes {form or "no word"}{f", {wanted} words" if wanted > 1 else ""}, and here {"is" if len(words) == 1 else "are"} {len(words) or "none"}'


def of_number(what, word, most=None):
    if is_refused(number, word):
        return f'{what}: {shown(word)} is no decimal number below 2^64'
    if most is not None and number(word) > most:
        return f'{what}: {shown(word)} is more than {most}'
    return None


def of_path(word):
    if b'\r' in word:
        return 'PATH: a carriage return in it'
    return 'PATH: it is not UTF-8' if is_refused(path_of, word) else None


def of_data(word):
    if any(byte < 33 or byte > 126 for byte in word):
        return 'DATA: a byte that is not printable ASCII'
    return 'DATA: a count of 2^64 or more' if is_refused(data, word) else None


class Causes:
    """The causes on a simulator's cell as it stands."""

    def __init__(self, simulator):
        self.cell = simulator.cell

    def of_node(self, word, kinds='smc'):
        name = shown(word)
        if name in self.cell.nodes() and name[0] in kinds:
            return None
        number_in = name[1:]
        if name[:1] in ('s', 'c') and number_in.isascii() and number_in.isdigit():
            if name[0] not in kinds:
                return f'{name}: a {"client" if kinds == "c" else "server"} has to stand here'
            if number_in[0] == '0':
                return f'{name}: nodes count from 1, and a zero does not lead'
            count, what, option = (self.cell.server_count, 'server', 'servers') if name[0] == 's' else (self.cell.client_count, 'client', 'clients')
            return f'{name}: the cell has {count} {what}{"s" * (count != 1)} (--{option})'
        wanted = {'c': 'a client, as c1', 's': 'a server, as s1'}.get(kinds, 'master, a server as s1, or a client as c1')
        return f'{name}: no node; {wanted}{near(name, ["master"]) if kinds == "smc" else ""}'

    def of_call(self, client, words):
        wrong = self.of_node(client, 'c')
        if wrong:
            return wrong
        if not words:
            return f'{shown(client)}: a call is missing'
        name = shown(words[0])
        if name not in ARGUMENTS:
            return f'no call {name}{near(name, ARGUMENTS)}'
        form = 'PATH CHUNK GOAL' if name == 'create' and len(words) > 2 else CALLS.get(name, 'PATH')
        return of_count(name, form, words[1:]) or self.of_arguments(form, words[1:]) or self.of_open(shown(client))

    def of_open(self, client):
        return f'{client}: its last call is open; finish waits for it' if self.cell.is_open(client) else None

    def of_arguments(self, form, words):
        readers = {'PATH': of_path, 'DATA': of_data, 'sN': lambda word: self.of_node(word, 's'), 'NODE': self.of_node, 'KIND': self.of_kind, 'T': self.of_torn,
                   'BYTE': lambda word: of_number('BYTE', word, 255)}
        for what, word in zip(form.split(), words):
            wrong = readers[what](word) if what in readers else of_number(what, word)
            if wrong:
                return wrong
        return None

    @staticmethod
    def of_kind(word):
        name = shown(word)
        return None if name in KINDS else f'no kind of message {name}{near(name, sorted(KINDS))}'

    @staticmethod
    def of_torn(word):
        return None if word in (b'old', b'new') or not of_number('T', word, 255) else f'T: {shown(word)} is neither old, new, nor a number up to 255'

    def of_chunk(self, path, index):
        """Why there is no such chunk."""
        file = self.cell.file(path)
        if file is None:
            is_down = not self.cell.world['master']['up']
            return 'the master is down, and knows no file' if is_down else f'{shown(path)} is no file'
        return f'{shown(path)} has no chunk {number(index)}' if self.cell.chunk(file, number(index)) is None else None

    def of_line(self, name, words):
        if name == 'start':
            return self.of_call(words[0], words[1:]) if words else 'start takes cN CALL'
        form = LINES[name]
        wrong = of_count(name, form, words) or self.of_arguments(form, words)
        if wrong or 'INDEX' not in form:
            return wrong
        at = form.split().index('PATH')
        return self.of_chunk(words[at], words[at + 1])

    def of(self, text):
        """Why this line is bad."""
        if len(text) > LONGEST_LINE:
            return f'it has {len(text)} bytes, and a line {LONGEST_LINE} at most'
        words = text.split(b' ')
        head = shown(words[0])
        wrong = of_spaces(text)
        if wrong:
            return wrong
        if head in LINES:
            return self.of_line(head, words[1:]) or UNKNOWN
        if head[:1] == 'c' and head[1:].isdigit():
            return self.of_call(words[0], words[1:]) or UNKNOWN
        if head in ARGUMENTS:
            return f'{head} is a call, and a client makes it: c1 {head}'
        names = [*LINES, *(it for it in self.cell.nodes() if it[0] == 'c')]
        return f'no line begins with {head}{near(head, names)}'

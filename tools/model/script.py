"""The simulator's script language, over a cell that runs by the definitions."""
from cell import Cell, REFUSALS
from fuse import LogDisk, StoreDisk

KINDS = set((
    'Name Look Ask Named Told Wait Refused Push Pushed Mutate Done Forward Acked Nacked Read Len Bytes LenIs Create '
    'SetVersion Recorded Grant Extend Revoke Revoked Drop Clone CopyAsk Image Cloned CopyLocal Report').split())
# the arguments of each call: a path, a number, or data
ARGUMENTS = {
    'mkdir': 'p', 'rmdir': 'p', 'create': 'p', 'open': 'p', 'close': 'n', 'delete': 'p', 'rename': 'pp', 'list': 'p',
    'length': 'n', 'snapshot': 'pp', 'write': 'nnd', 'append': 'nd', 'read': 'nnn'}
# a file may be made with the size of its chunks and its goal
WITH_SHAPE = 'pnn'
LONGEST_DATA = 67108864
LONGEST_LINE = 8192
MOST_ROUNDS = 1_000_000


class BadLine(Exception):
    pass


class NoEnd(Exception):
    pass


def number(word):
    digits = word.lstrip(b'0')
    if not word.isascii() or not word.isdigit() or len(digits) > 20 or int(digits or b'0') >= 1 << 64:
        raise BadLine()
    return int(digits or b'0')


def data(word):
    """A word of printable bytes, or one byte, `*` and a count. A count that is too great for any call isn't built."""
    if not all(33 <= byte <= 126 for byte in word):
        raise BadLine()
    if len(word) >= 3 and word[1:2] == b'*' and word[2:].isdigit():
        return word[:1] * min(number(word[2:]), LONGEST_DATA + 1)
    return word


def path_of(word):
    """A word of any text without a carriage return."""
    try:
        word.decode('utf-8')
    except UnicodeDecodeError:
        raise BadLine() from None
    if b'\r' in word:
        raise BadLine()
    return bytes(word)


def shown(client, answer):
    """The line that an answer prints."""
    kind = answer[0]
    if kind == 'Done':
        return f'{client} done'
    if kind == 'Fd':
        return f'{client} fd {answer[1]["0"]}'
    if kind in ('Length', 'At'):
        return f'{client} {kind.lower()} {answer[1]}'
    if kind == 'Names':
        names = [bytes(name).decode('utf8', 'surrogateescape') for name in answer[1]]
        return ' '.join([f'{client} names {len(names)}'] + names)
    if kind == 'Bytes':
        found = bytes(answer[1])
        rounds = ','.join(map(str, answer[2])) or '-'
        return f'{client} bytes {len(found)} {found.hex() or "-"} rounds {rounds}'
    name = answer[1][0]
    return f'{client} refused {42 if name == "ServerTooLong" else REFUSALS[name]} {name}'


class Simulator:
    """Runs the lines of a script. `out` takes each line that is printed."""

    def __init__(self, cell, out):
        self.cell = cell
        self.out = out
        self.clock = 0
        self.seen = 1
        self.pending = []
        self.aside = []
        self.holds = []
        self.twices = []
        self.cuts = set()
        self.disks = {}

    def disk(self, node):
        """The disk of the master's log, or of a server's replicas."""
        if node not in self.disks:
            self.disks[node] = LogDisk(self.cell, self.cell.choose) if node == 'master' else StoreDisk(node, self.cell.choose)
            self.cell.choose = self.disks[node]
        return self.disks[node]

    def collect(self):
        """Each new message is put aside, lost, or left to be delivered."""
        messages = self.cell.messages
        for message in messages[self.seen:]:
            matter = (message.kind, message.receiver)
            if matter in self.holds:
                self.holds.remove(matter)
                self.aside.append(message.number)
            elif message.sender not in self.cuts and message.receiver not in self.cuts:
                self.pending.append(message.number)
        self.seen = len(messages)

    def after(self, node, answer):
        self.collect()
        if answer is not None:
            self.out(shown(node, answer))

    def deliver_one(self, message_number):
        message = self.cell.messages[message_number]
        self.after(message.receiver, self.cell.deliver(message_number, self.clock))
        matter = (message.kind, message.receiver)
        if matter in self.twices:
            self.twices.remove(matter)
            self.after(message.receiver, self.cell.deliver(message_number, self.clock))

    def deliver(self):
        while self.pending:
            self.deliver_one(self.pending.pop(0))

    def tick_round(self):
        names = self.cell.nodes()
        for group in ('s', 'm', 'c'):
            for node in [n for n in names if n[0] == group and n not in self.cuts]:
                self.after(node, self.cell.tick(node, self.clock))
            self.deliver()

    def rounds_while(self, goes_on):
        for _ in range(MOST_ROUNDS):
            if not goes_on():
                return
            self.clock += 100
            self.tick_round()
        if goes_on():
            raise NoEnd()

    def node(self, word):
        name = word.decode('ascii', 'replace')
        if name not in self.cell.nodes():
            raise BadLine()
        return name

    def kind(self, word):
        name = word.decode('ascii', 'replace')
        if name not in KINDS:
            raise BadLine()
        return name

    def client(self, word):
        name = self.node(word)
        if name[0] != 'c':
            raise BadLine()
        return name

    def parsed_call(self, words):
        name = words[0].decode('ascii', 'replace')
        kinds = ARGUMENTS.get(name)
        if name == 'create' and len(words) == 4:
            kinds = WITH_SHAPE
        if kinds is None or len(kinds) != len(words) - 1:
            raise BadLine()
        readers = {'p': path_of, 'n': number, 'd': data}
        return (name, *[readers[kind](word) for kind, word in zip(kinds, words[1:])])

    def call(self, client, words):
        if not words or self.cell.is_open(client):
            raise BadLine()
        self.after(client, self.cell.call(client, self.parsed_call(words), self.clock))
        self.deliver()

    def chunk(self, path, index):
        """A file's chunk, as (file, index, handle)."""
        file = self.cell.file(path_of(path))
        handle = None if file is None else self.cell.chunk(file, number(index))
        if handle is None:
            raise BadLine()
        return file, number(index), handle

    def line(self, text):
        if len(text) > LONGEST_LINE:
            raise BadLine()
        if not text or text.startswith(b'#'):
            return
        words = text.split(b' ')
        if b'' in words:
            raise BadLine()
        head = words[0].decode('ascii', 'replace')
        if head[:1] == 'c' and head[1:].isdigit():
            client = self.client(words[0])
            self.call(client, words[1:])
            self.rounds_while(lambda: self.cell.is_open(client))
            return
        action = getattr(self, 'line_' + head, None)
        counts = {'start': None, 'finish': 0, 'wait': 1, 'hold': 2, 'free': 0, 'twice': 2, 'cut': 1, 'join': 1,
                  'restart': 1, 'rebase': 0, 'fuse': 3, 'rot': 5, 'regions': 2, 'replicas': 2}
        if action is None or counts[head] not in (None, len(words) - 1):
            raise BadLine()
        action(*words[1:])

    def line_start(self, client=b'', *words):
        self.call(self.client(client), words)

    def line_finish(self):
        clients = [n for n in self.cell.nodes() if n[0] == 'c']
        self.rounds_while(lambda: any(self.cell.is_open(client) for client in clients))

    def line_wait(self, moments):
        self.clock += number(moments)
        self.tick_round()

    def line_hold(self, kind, node):
        self.holds.append((self.kind(kind), self.node(node)))

    def line_twice(self, kind, node):
        self.twices.append((self.kind(kind), self.node(node)))

    def line_free(self):
        freed, self.aside = sorted(self.aside), []
        for message_number in freed:
            self.deliver_one(message_number)
        self.deliver()

    def line_cut(self, word):
        node = self.node(word)
        self.cuts.add(node)
        ends = {n: (self.cell.messages[n].sender, self.cell.messages[n].receiver) for n in self.pending}
        self.pending = [n for n in self.pending if node not in ends[n]]

    def line_join(self, word):
        self.cuts.discard(self.node(word))

    def line_restart(self, word):
        node = self.node(word)
        self.cell.restart(node, self.clock)
        self.collect()
        self.deliver()

    def line_rebase(self):
        self.cell.rebase(self.clock)
        self.pending, self.aside = [], []
        self.seen = len(self.cell.messages)

    def line_fuse(self, word, calls, torn):
        node = self.node(word)
        count = number(calls)
        if torn not in (b'old', b'new') and number(torn) > 255:
            raise BadLine()
        if node[0] != 'c':
            self.disk(node).stop(self.cell, count, torn if torn in (b'old', b'new') else b'%d' % number(torn))

    def line_rot(self, word, path, index, place, byte):
        server = self.node(word)
        if server[0] != 's' or number(byte) > 255:
            raise BadLine()
        handle = self.chunk(path, index)[2]
        self.cell.rot(server, handle, number(place), number(byte))

    def line_regions(self, path, index):
        file, at, _ = self.chunk(path, index)
        regions = [f'{a}-{b} {"determined" if is_determined else "undetermined"}' for a, b, is_determined in self.cell.regions(file, at)]
        self.out('regions ' + (', '.join(regions) or '-'))

    def line_replicas(self, path, index):
        file, at, handle = self.chunk(path, index)
        replicas = [f's{server} v{version} {count}' for server, version, count in self.cell.replicas(file, at)]
        self.out(f'replicas {handle}' + (' ' + ', '.join(replicas) if replicas else ''))

    def script(self, text):
        """All lines; None, or the number of the line that stopped it and its fault."""
        for place, line in enumerate(text.split(b'\n'), 1):
            try:
                self.line(line)
            except BadLine:
                return place, 'bad line'
            except NoEnd:
                return place, 'no end'
        return None


def run_script(text, settings=None, servers=3, clients=2, choose=None, program=None):
    """The lines that a script prints, and the cell after it."""
    printed = []
    cell = Cell({'chunk': 64, 'block': 16, **(settings or {})}, servers, clients, choose, program)
    fault = Simulator(cell, printed.append).script(text)
    if fault:
        printed.append('line %d: %s' % fault)
    return printed, cell

"""The cell of a few messages of crates/worked_events, and the lines that its 68 scripts have to print.

What this cell does is told at the top of crates/worked_events/src/fake.rt; its first events are printed as events.rt there has them.
"""
import os

from script import BadLine, NoEnd, Simulator, number

WORKED = os.path.join(os.path.dirname(os.path.dirname(os.path.dirname(os.path.abspath(__file__)))), 'crates', 'worked_events')
LAST_MOMENT = (1 << 64) - 1
MOST_EVENTS = 40
GIVES_UP = 500


class FakeMessage:
    def __init__(self, message_number, sender, receiver, kind, is_long=False):
        self.number = message_number
        self.sender = sender
        self.receiver = receiver
        self.kind = kind
        self.is_long = is_long


def node_shown(name):
    if name == 'master':
        return 'Master'
    return f'Server(ServerId({name[1:]}))' if name[0] == 's' else f'Client(ClientId({name[1:]}))'


def call_shown(call):
    """A call as Rust's Debug prints it."""
    name, arguments = call[0], list(call[1:])
    if name in ('close', 'length', 'write', 'append', 'read'):
        arguments[0] = f'Fd({arguments[0]})'
    for place, argument in enumerate(arguments):
        if isinstance(argument, bytes):
            text = argument.decode()
            arguments[place] = f'b"{text}"' if name in ('write', 'append') else f'Text {{ text: "{text}" }}'
    if name == 'create' and len(arguments) == 1:
        arguments.append('None')
    return f'{name.capitalize()}({", ".join(map(str, arguments))})'


class FakeCell:
    def __init__(self, servers, clients):
        self.servers = servers
        self.clients = clients
        self.names = ['master'] + [f's{i + 1}' for i in range(servers)] + [f'c{i + 1}' for i in range(clients)]
        self.messages = [None]
        # each client whose call is open, and whether that call is a `mkdir`
        self.open = {}
        self.asker = None
        self.recorded = 0
        self.events = []

    def happened(self, event):
        if len(self.events) < MOST_EVENTS:
            self.events.append(event)

    def nodes(self):
        return self.names

    def is_open(self, client):
        return client in self.open

    def send(self, sender, receiver, kind, is_long=False):
        self.messages.append(FakeMessage(len(self.messages), sender, receiver, kind, is_long))

    def call(self, client, call, now):
        self.happened(f'ClientId({client[1:]}) calls {call_shown(call)}@{now}')
        self.open[client] = call[0] == 'mkdir'
        self.send(client, 'master', 'Ask', self.open[client])

    def deliver(self, message_number, now):
        self.happened(f'{message_number}@{now}')
        message = self.messages[message_number]
        if message.kind == 'Ask' and message.is_long:
            self.asker = message.sender
            for server in range(self.servers):
                self.send('master', f's{server + 1}', 'Create')
        elif message.kind == 'Ask':
            self.send('master', message.sender, 'Wait')
        elif message.kind == 'Create':
            self.send(message.receiver, 'master', 'Recorded')
        elif message.kind == 'Recorded':
            self.recorded = (self.recorded + 1) % self.servers
            if self.recorded == 0:
                self.send('master', self.asker, 'Wait')
        elif message.kind == 'Wait' and self.open.pop(message.receiver, None) is not None:
            return ('Done',)
        return None

    def tick(self, node, now):
        self.happened(f'{node_shown(node)} ticks@{now}')
        if now >= GIVES_UP and self.open.get(node) is False:
            del self.open[node]
            return ('Refused', ('Unknown',))
        return None

    def restart(self, node, now):
        self.happened(f'{node_shown(node)} restarts@{now}')
        self.send(node, 'master', 'Revoked')

    def fuse(self, node, calls, torn):
        self.happened(f'{node_shown(node)} fuses {calls} {torn}')

    def rot(self, server, handle, place, byte):
        self.happened(f'ServerId({server[1:]}) rots Handle({handle}) {place} {byte}')

    def file(self, path):
        return {b'/f': 1, b'/e': 2}.get(path)

    def chunk(self, file, index):
        return file if index == 0 else None

    def regions(self, file, _index):
        return [(0, 13, False), (13, 26, True)] if file == 1 else []

    def replicas(self, file, _index):
        return [(1, 2, 26), (3, 1, 13)] if file == 1 else []


class FakeSimulator(Simulator):
    """No node has a disk here: fuses and rotten bytes are events alone."""

    def rounds_while(self, goes_on):
        # from that moment on a round changes nothing more, so that there is no end
        while goes_on():
            if self.clock > GIVES_UP and len(self.cell.events) == MOST_EVENTS:
                raise NoEnd()
            self.clock += 100
            self.tick_round()

    def line_wait(self, moments):
        self.clock = min(self.clock + number(moments), LAST_MOMENT)
        self.tick_round()

    def line_fuse(self, word, calls, torn):
        node, count = self.node(word), number(calls)
        if torn not in (b'old', b'new') and number(torn) > 255:
            raise BadLine()
        self.cell.fuse(node, count, torn.decode().capitalize() if torn in (b'old', b'new') else f'Byte({number(torn)})')

    def line_rot(self, word, path, index, place, byte):
        server = self.node(word)
        if server[0] != 's' or number(byte) > 255:
            raise BadLine()
        self.cell.rot(server, self.chunk(path, index)[2], number(place), number(byte))


def printed_by(script):
    """The lines of a script behind one with the numbers of its cell's servers and clients."""
    counts, lines = script.split(b'\n', 1)
    cell = FakeCell(*map(int, counts.split(b' ')))
    printed = []
    fault = FakeSimulator(cell, printed.append).script(lines)
    if fault:
        printed.append('line %d: %s' % fault)
    return printed + [''.join(event + '; ' for event in cell.events)]


def printing_else():
    """The lines in which the scripts of crates/worked_events print something else than stands there."""
    with open(os.path.join(WORKED, 'data', 'scripts.txt'), 'rb') as file:
        scripts = file.read().split(b'====\n')
    with open(os.path.join(WORKED, 'stdout'), encoding='utf-8') as file:
        expected = file.read().split('\n')
    printed = [line for script in scripts for line in printed_by(script)] + ['']
    if len(printed) != len(expected):
        return [f'worked_events: {len(printed)} lines, where stdout has {len(expected)}']
    return [f'worked_events, line {place}: {line}' for place, (line, other) in enumerate(zip(printed, expected), 1) if line != other]

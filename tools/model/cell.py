"""A cell that runs by the definitions: events in, answers and messages out."""
import state
from rebased import Rebased
from translate import Program
from words import apply

REFUSALS = {
    'BadPath': 1, 'NoParent': 2, 'Exists': 3, 'NotFound': 4, 'NotFile': 5, 'NotDir': 6, 'NotEmpty': 7, 'Reserved': 8,
    'Inside': 9, 'Busy': 10, 'TooLong': 11, 'BadFd': 12, 'NamesFull': 13, 'Collected': 14, 'NoReplica': 15,
    'Failed': 16, 'Unknown': 17, 'NoMemory': 18, 'ClockBroken': 19, 'JournalFull': 20, 'Closed': 21, 'BadSize': 22}

# name, least, greatest and default of each setting
SETTINGS = [
    ('chunk', 64, 67108864, 1048576), ('block', 16, 65536, 65536), ('goal', 1, 8, 3), ('lease_ms', 1, 3600000, 60000),
    ('skew_ms', 0, 60000, 2000), ('attempt_ms', 1, 600000, 5000), ('attempts', 1, 16, 5), ('cache_entries', 1, 65536, 256),
    ('cache_ms', 1, 86400000, 60000), ('push_entries', 1, 4096, 64), ('keep_ms', 1, 31536000000, 259200000),
    ('slots', 1, 65536, 32), ('log_bytes', 4096, 1073741824, 16777216), ('journal', 16, 16777216, 1048576)]

# a step that nothing hinders
GOES = {'ending': ('Goes',), 'order': [], 'refused': [], 'decided': []}


def wrapped(number):
    """An id, as the definitions have it."""
    return {'0': number}


def node_name(node):
    if node[0] == 'Master':
        return 'master'
    return ('s' if node[0] == 'Server' else 'c') + str(node[1]['0'])


def node_of(name):
    if name == 'master':
        return ('Master',)
    return ('Server' if name[0] == 's' else 'Client', wrapped(int(name[1:])))


def call_of(call):
    """A call as (name, argument, ..) becomes the definitions' Call. Paths and data are bytes."""
    name, arguments = call[0], call[1:]
    variant = name.capitalize()
    if name == 'create':
        # without a shape that of the settings
        shape = ('Some', {'chunk': arguments[1], 'goal': arguments[2]}) if len(arguments) > 1 else ('None',)
        return (variant, list(arguments[0]), shape)
    if name in ('mkdir', 'rmdir', 'open', 'delete', 'list', 'rename', 'snapshot'):
        return (variant, *[list(path) for path in arguments])
    if name in ('close', 'length'):
        return (variant, wrapped(arguments[0]))
    if name == 'write':
        return (variant, wrapped(arguments[0]), arguments[1], list(arguments[2]))
    if name == 'append':
        return (variant, wrapped(arguments[0]), list(arguments[1]))
    return (variant, wrapped(arguments[0]), arguments[1], arguments[2])


class SentMessage:
    def __init__(self, message):
        self.number = message['number']
        self.kind = message['body'][0]
        self.body = message['body']
        self.sender = node_name(message['sender'])
        self.receiver = node_name(message['receiver'])


def check_settings(settings):
    """The first setting that is out of range, or None."""
    for name, least, greatest, _ in SETTINGS:
        value = settings[name]
        if not least <= value <= greatest:
            return name
        if (name == 'chunk' and value % 16) or (name == 'block' and settings['chunk'] % value):
            return name
        if name == 'skew_ms' and value >= settings['lease_ms']:
            return name
    return None


class Cell:
    """A world of the definitions. `choose`, where it is given, makes the choice of each event."""

    def __init__(self, settings, servers, clients, choose=None, program=None):
        self.settings = {name: settings.get(name, default) for name, _, _, default in SETTINGS}
        if check_settings(self.settings):
            raise ValueError(check_settings(self.settings))
        self.server_count = servers
        self.client_count = clients
        self.choose = choose
        self.program = program or Program()
        self.world = state.with_grown(apply(self.definition('World', 'new_world'), self.settings, servers, clients))
        self.happens = self.definition('World', 'happens')
        self.messages = [None]
        self.event_count = 0
        # the cell beside this one that dropped its messages, if it was rebased
        self.rebased = None

    def definition(self, module, name):
        return self.program.function(state.PROTOCOL, module, name)

    def rebase_definition(self, name):
        return self.program.function(state.REBASE, 'Rebased', name)

    def nodes(self):
        return (['master'] + [f's{i + 1}' for i in range(self.server_count)]
                + [f'c{i + 1}' for i in range(self.client_count)])

    def is_open(self, client):
        return state.is_in_call(state.client(self.world, int(client[1:])))

    def take(self, event, choice=None):
        """One event. The answer that it gives, if any."""
        self.event_count += 1
        if choice is None:
            choice = self.choose(event, self) if self.choose else GOES
        happened = apply(self.happens, self.world, event, choice)
        if self.rebased:
            self.rebased.take(event, choice, happened)
        self.world = happened['world']
        for message in state.sent(self.world)[len(self.messages) - 1:]:
            self.messages.append(SentMessage(message))
        answer = happened['out']['answer']
        return answer[1] if answer[0] == 'Some' else None

    def call(self, client, call, now):
        return self.take(('Call', wrapped(int(client[1:])), call_of(call), wrapped(now)))

    def deliver(self, number, now):
        return self.take(('Deliver', number, wrapped(now)))

    def tick(self, node, now):
        return self.take(('Tick', node_of(node), wrapped(now)))

    def restart(self, node, now):
        self.take(('Restart', node_of(node), wrapped(now)))

    def rebase(self, now):
        """The master and each server begin again, and messages are counted anew."""
        for event in apply(self.rebase_definition('restart_events'), self.server_count, now):
            self.take(event)
        self.drop_messages()

    def drop_messages(self):
        """From now on a cell that counts its messages anew goes beside this one, which keeps all."""
        self.rebased = Rebased(self)

    def rot(self, server, handle, place, byte):
        self.take(('Rot', wrapped(int(server[1:])), wrapped(handle), place, byte))

    def looked_up(self, name, *arguments):
        found = apply(self.definition('Lookups', name), self.world, *arguments)
        return found[1] if found[0] == 'Some' else None

    def file(self, path):
        return self.looked_up('file_named', list(path))

    def chunk(self, file, index):
        return self.looked_up('handle_at', file, index)

    def regions(self, file, index):
        return [(r['from'], r['to'], r['determined']) for r in self.looked_up('regions_at', file, index)]

    def replicas(self, file, index):
        return [(r['server'], r['version'], r['count']) for r in self.looked_up('replicas_at', file, index)['1']]

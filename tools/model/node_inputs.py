"""One node by the definitions, which takes inputs, and these and what it gives as the words that the program of `one_node_source` reads and prints."""
import state
from cell import GOES
from words import FiniteMap, apply

# what messages are made of has its fields in the order in which they are declared; all else in the order of their names
DECLARED = [('client', 'seq'), ('epoch', 'count'), ('index', 'handle', 'round', 'shape', 'holders', 'group'), ('server', 'version'), ('primary', 'members'),
            ('handle', 'version'), ('handle', 'version', 'was_used_since_report')]
ORDERS = {frozenset(names): names for names in DECLARED}
COUNTED = ('entries', 'live', 'snapshots', 'under_way')
PLAIN = set(b'/.0123456789abcdefghijklmnopqrstuvwxyzABCDEFGHIJKLMNOPQRSTUVWXYZ')


def words_of_bytes(values):
    return ["'" + ''.join(chr(byte) if byte in PLAIN else '\\%02x' % byte for byte in values)]


def words_of_list(values):
    """Numbers with commas between them, or lines of a list of replicas, leases or holders."""
    if not values:
        return ['-']
    return [','.join(':'.join(words_of(value)) for value in values)]


def counted(values):
    return [str(len(values))] + [word for value in values for word in words_of(value)]


def is_number_list(name, place, parts):
    """Whether a list that a variant holds is one of numbers or lines, and not of bytes."""
    return name in ('Grant', 'Report', 'SentRead') or (name == 'Push' and place == 2) or (name == 'Bytes' and place == 1 and isinstance(parts[0], list))


def words_of_variant(value):
    name, *parts = value
    if name == 'Master':
        return ['master']
    if name in ('Server', 'Client'):
        return [name[0].lower() + str(state.number(parts[0]))]
    if name == 'Names':
        return [name, str(len(parts[0]))] + [word for text in parts[0] for word in words_of_bytes(text)]
    words = [name]
    for place, part in enumerate(parts):
        words += words_of_bytes(part) if isinstance(part, list) and not is_number_list(name, place, parts) else words_of(part)
    return words


def words_of_field(name, value):
    if name in COUNTED:
        return counted(value)
    return words_of_bytes(value) if name in ('from', 'to') else words_of(value)


def words_of(value):
    """A value as the words that the program reads and prints."""
    if isinstance(value, bool):
        return ['yes' if value else 'no']
    if isinstance(value, int):
        return [str(value)]
    if isinstance(value, tuple):
        return words_of_variant(value)
    if isinstance(value, dict):
        names = ORDERS.get(frozenset(value)) or sorted(value)
        return [word for name in names for word in words_of_field(name, value[name])]
    if isinstance(value, FiniteMap):
        return [str(len(value.items))] + [word for key in sorted(value.items) for word in (words_of_bytes(key) if isinstance(key, tuple) else words_of(key)) + words_of(value.items[key])]
    return words_of_list(value)


def lines_of(taken):
    """What a step gives, a line each."""
    out = taken['out']
    lines = [' '.join(['>'] + words_of(message['receiver']) + words_of(message['body'])) for message in out['sent']]
    if out['answer'][0] == 'Some':
        lines.append(' '.join(['!'] + words_of(out['answer'][1])))
    lines += [' '.join(['~'] + words_of(seen)) for seen in taken['seen']]
    return lines + (['down'] if out['down'] else [])


class Node:
    """One node by the definitions."""

    def __init__(self, name, cell, program):
        self.kind = {'s': 'server', 'c': 'client', 'm': 'master'}[name[0]]
        self.settings = cell.settings
        self.program = program
        self.choice = GOES
        self.id = cell.server_count if name == 'master' else int(name[1:])
        self.state = state.master(cell.world) if name == 'master' else (state.server(cell.world, name) if name[0] == 's' else state.client(cell.world, self.id))

    def definition(self, module, name):
        return self.program.function(state.PROTOCOL, module, name)

    def takes(self, given):
        """What a step gives, or None where this node takes no such input."""
        kind, module = given[0], self.kind.capitalize() + 'Step'
        if kind == 'rot':
            return self.rots(*given[1:])
        if kind == 'call':
            if not apply(self.definition('ClientStep', 'may_call'), self.state):
                return None
            taken = apply(self.definition(module, 'client_call'), self.state, given[1], given[2], self.choice)
        elif kind == 'restart':
            taken = apply(self.definition(module, self.kind + '_restart'), self.state, given[1], self.choice)
        else:
            taken = apply(self.definition(module, self.kind + '_step'), self.state, given[1], given[2], self.choice)
        self.state = taken['state']
        return lines_of(taken)

    def rots(self, handle, place, byte):
        """A byte of a replica becomes another; of a server that is up, as the world has it."""
        if not self.state['up'] or place >= self.settings['chunk']:
            return None
        disk = self.state['disk']
        if handle in disk['replicas'].items:
            rotten = apply(self.program.function('replica_store', 'Replicas', 'rotten_replica'), disk['replicas'].items[handle], place, byte)
            replicas = FiniteMap({**disk['replicas'].items, handle: rotten})
            self.state = {**self.state, 'disk': {**disk, 'replicas': replicas}}
        return []

    def words(self):
        shown = {name: value for name, value in self.state.items() if name != 'config'}
        if self.kind == 'master' and not self.state['up']:
            return ['|', 'down']
        if self.kind == 'master':
            shown = {name: value for name, value in shown.items() if name not in ('server_count', 'under_way')}
            shown['disk'] = [len(shown['disk']['items']), len(shown['disk']['records'])]
        return ['|'] + words_of(shown)


def words_of_input(given):
    """An input's line."""
    kind = given[0]
    if kind == 'rot':
        return ['0', 'rot'] + [str(number) for number in given[1:]]
    moment = [str(given[1])]
    if kind == 'call':
        return moment + ['call'] + words_of(given[2])
    if kind == 'restart' or given[2][0] == 'Tick':
        return moment + ['restart' if kind == 'restart' else 'tick']
    message = given[2][1]
    return moment + words_of(message['sender']) + words_of(message['body'])

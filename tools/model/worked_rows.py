"""The worked rows of rows/: a script with what it has to print."""
import difflib
import os

from cell import GOES, SETTINGS, check_settings
from script import run_script

ROOT = os.path.dirname(os.path.dirname(os.path.dirname(os.path.abspath(__file__))))
# Of servers, and of clients.
MAX_NODES = 64

WORKED = os.path.join(ROOT, 'rows')


def row_named(name):
    """The file of the row, or of the rows, of this name."""
    rows = os.path.join(WORKED, name + '.rows')
    return rows if os.path.exists(rows) else os.path.join(WORKED, name + '.row')


def rows_of(path):
    """The row of a file, or the rows of one whose name ends in `.rows`."""
    with open(path, 'rb') as file:
        text = file.read()
    return text.split(b'====\n') if path.endswith('.rows') else [text]


def options_of(script):
    """The options in a script's comments, as `lease_ms`."""
    options = {}
    for line in script.split(b'\n'):
        if line.startswith(b'# --'):
            words = line[2:].decode().split(' ')
            options.update((name[2:].replace('-', '_'), int(value)) for name, value in zip(words[::2], words[1::2]))
    return options


def parts_of(row):
    """A row's options, script and expected lines."""
    script, expected = row.split(b'\n----\n')
    return options_of(script), script, expected.decode().splitlines()


class Stopped:
    """The node is put down in its step on the first message of a kind, and a restart decides what was under way."""

    def __init__(self, kind, receiver, ending, decided):
        self.matter = (kind, receiver)
        self.ending = ending
        self.decided = decided

    def __call__(self, event, cell):
        choice = {**GOES, 'decided': self.decided}
        if self.matter and event[0] == 'Deliver':
            message = cell.messages[event[1]]
            if (message.kind, message.receiver) == self.matter:
                self.matter = None
                choice['ending'] = self.ending
        return choice


class Full:
    """An allocator refuses the names' growth in a node's step on each message of a kind from one count to another."""

    def __init__(self, kind, receiver, first, last):
        self.matter = (kind, receiver)
        self.places = range(first, last + 1)
        self.count = 0

    def __call__(self, event, cell):
        if event[0] == 'Deliver':
            message = cell.messages[event[1]]
            if (message.kind, message.receiver) == self.matter:
                self.count += 1
                if self.count in self.places:
                    return {**GOES, 'refused': [True]}
        return GOES


def stops_of(script):
    """Each way to stop a node that the script's line `# stop KIND NODE` asks for, or the refusals of `# full KIND NODE FIRST LAST`; else one way, which hinders nothing."""
    for line in script.split(b'\n'):
        if line.startswith(b'# full '):
            kind, node, first, last = line[7:].decode().split(' ')
            return [Full(kind, node, int(first), int(last))]
        if line.startswith(b'# stop '):
            kind, node = line[7:].decode().split(' ')
            stops = [Stopped(kind, node, ('Stops', made), [was_made]) for made in range(3) for was_made in (True, False)]
            return [Stopped(kind, node, ('Lost',), [])] + stops
    return [None]


def read_row(path):
    return parts_of(rows_of(path)[0])


def can_start(settings, servers, clients):
    given = {'chunk': 64, 'block': 16, **settings}
    return 1 <= servers <= MAX_NODES and 1 <= clients <= MAX_NODES and not check_settings({name: given.get(name, default) for name, _, _, default in SETTINGS})


def faults_of(row, program):
    options, script, expected = parts_of(row)
    servers = options.pop('servers', 3)
    clients = options.pop('clients', 2)
    faults = []
    for choose in stops_of(script):
        printed = ['cannot start']
        if can_start(options, servers, clients):
            printed, _ = run_script(script, options, servers, clients, choose, program)
        faults += difflib.unified_diff(expected, printed, 'expected', 'printed', lineterm='', n=1)
    return faults


def row_faults(path, program):
    return [fault for row in rows_of(path) for fault in faults_of(row, program)]

"""What the tools know of the definitions' state: names of crates, files, definitions and fields. `simulate.py`, `statements.py`, the judges and others name some fields too.

Numbers that are ids may be wrapped in a record (`ServerId`) or not; `number` takes both.
"""
import hashlib
from collections import namedtuple

from words import Grown

# the crate that has World, Lookups, Logged and MasterStep
PROTOCOL = 'protocol'
# the crate that has Rebased
REBASE = 'protocol_journal'

Entry = namedtuple('Entry', 'client call attempt round serial kind offset content is_settled')
Row = namedtuple('Row', 'granted issued references primary members lease_end shape')
Lease = namedtuple('Lease', 'version until members chunk')
Replica = namedtuple('Replica', 'version serial count bytes digests')
Snapshot = namedtuple('Snapshot', 'client deadline')


def number(value):
    return value['0'] if isinstance(value, dict) else value


def numbers(values):
    return [number(value) for value in values]


# ---------------------------------------------------------------- the world

def master(world):
    return world['master']


def servers(world):
    return world['servers']


def server(world, name):
    """The server s1, s2, .."""
    return world['servers'][int(name[1:]) - 1]


def clients(world):
    return world['clients']


def client(world, count):
    return world['clients'][count - 1]


def is_up(node):
    return node['up']


def now_of(node):
    return node['now']


def sent(world):
    return world['sent']


def with_grown(world):
    """The world with a list of messages that costs no copy of them where it grows."""
    return {**world, 'sent': Grown(list(world['sent']))}


def is_kept(world):
    """Clocks and disks kept what is asked of them."""
    return world['observer']['are_clocks_kept'] and world['observer']['are_disks_kept']


def greatest(world):
    return world['observer']['greatest']


def trace(world):
    return world['observer']['trace']


def calls_made(world, count):
    return sum(1 for step in trace(world) if step[0] == 'Called' and number(step[1]) == count)


def orders(world):
    """By handle, the placed entries as the definitions have them; `entries` makes them readable."""
    return world['observer']['orders'].items


def files_seen(world):
    return world['observer']['files'].items


def entries(order):
    return kept_of(order, lambda: [entry_of(placed) for placed in order])


def entry_of(placed):
    entry = placed['entry']
    kind, offset = entry['mutation'][:2]
    content = [0] * (entry['mutation'][2] - offset) if kind == 'Pad' else entry['mutation'][2]
    call = entry['call']
    return Entry(number(call['client']), call['number'], placed['seq'], entry['round'], placed['serial'], kind, offset, content, entry['settled'])


# ---------------------------------------------------------------- the master

def log_of(node):
    return node['disk']


def checkpoint_of(node):
    return node['disk']['items']


def under_way(node):
    return node['under_way']


def logged(node):
    return node['logged']


def copies(of):
    """The copies of shared chunks that are under way, by handle."""
    return of['copies'].items


def names(state):
    return state['names'].items


def files(state):
    return state['table']['files'].items


def shapes(state):
    """By file, how its chunks are."""
    return state['table']['shapes'].items


def usual_shape(settings):
    return {'chunk': settings['chunk'], 'goal': settings['goal']}


def rows(state):
    chunks = state['table']['chunks']
    return kept_of(chunks, lambda: {handle: row_of(row) for handle, row in chunks.items.items()})


def row_of(row):
    return Row(row['granted'], row['issued'], row['references'], number(row['primary']), numbers(row['members']), row['lease_end'], row['shape'])


# what a replay of the log gives back, but for the table of chunks
LOGGED_FIELDS = ('next_file', 'next_handle', 'epoch', 'names', 'kept')


def next_handle(state):
    return state['next_handle']


def epoch(state):
    return state['epoch']


def attempted_versions(node):
    """By handle, the version that is under attempt."""
    return {handle: attempt['version'] for handle, attempt in node['attempts'].items.items()}


def pending_snapshots(node):
    return [Snapshot(number(s['client']), s['deadline']) for s in node['snapshots']]


def snapshot_paths(node):
    return [(s['from'], s['to']) for s in node['snapshots']]


# ---------------------------------------------------------------- servers and clients

def server_number(node):
    return number(node['id'])


def disk(node):
    return node['disk']


def replicas(node):
    table = node['disk']['replicas']
    return kept_of(table, lambda: {handle: replica_of(replica) for handle, replica in table.items.items()})


def replica_of(replica):
    """Its bytes as they lie on the disk, those of its whole chunk, and the digests of its blocks."""
    return Replica(replica['version'], replica['serial'], replica['count'], replica['bytes'], replica['digests'])


def rotten_blocks(replica, block):
    """The numbers of the blocks that don't have their digests."""
    digests = (hashlib.sha256(bytes(replica.bytes[n * block:(n + 1) * block])).digest() for n in range(len(replica.digests) // 32))
    return {n for n, digest in enumerate(digests) if list(digest) != replica.digests[32 * n:32 * n + 32]}


def leases(node):
    table = node['leases']
    return kept_of(table, lambda: {handle: lease_of(primary) for handle, primary in table.items.items()})


def lease_of(primary):
    held = primary['held']
    return Lease(held['version'], held['until'], numbers(held['members']), primary['chunk'])


def open_shapes(node):
    """By file that is open at a client, the shape that it was told."""
    return {file: open_file['shape'] for file, open_file in node['files'].items.items()}


def is_in_call(node):
    return node['current'][0] == 'Some'


def descriptors(node):
    return {number(fd): number(file) for fd, file in node['descriptors'].items.items()}


# ---------------------------------------------------------------- what was made readable, by the value that it was made of

KEPT = {}


def kept_of(value, make):
    found = KEPT.get(id(value))
    if found is None or found[0] is not value:
        if len(KEPT) > 5000:
            KEPT.clear()
        found = KEPT[id(value)] = (value, make())
    return found[1]

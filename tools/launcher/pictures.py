"""Pictures of chunks: the order of a chunk's mutations, its replicas and its regions, one below the other."""
import state
from facts import stored_bytes

WIDTH = 96
MARGIN = 26


def shown(byte):
    return chr(byte) if 33 <= byte < 127 else '0' if byte == 0 else '?'


def bar(places, scale):
    """Bytes by their places, so many places to a column."""
    columns = {}
    for place in sorted(places, reverse=True):
        columns[place // scale] = places[place]
    return ''.join(columns.get(at, ' ') for at in range(max(columns, default=-1) + 1))


def entry_row(entry):
    """What stands before a mutation's bytes, and these by their places."""
    label = f'{"settled" if entry.is_settled else "unsettled":<9} r{entry.round} c{entry.client} call {entry.call}'
    return label + (' pad' if entry.kind == 'Pad' else ''), {entry.offset + at: shown(byte) for at, byte in enumerate(entry.content)}


def replica_row(cell, number, server, handle):
    """A replica's bytes as they were stored, with a mark where one rotted."""
    replica = state.replicas(server)[handle]
    stored = stored_bytes(cell, server, handle)
    places = {at: shown(byte) if replica.bytes[at] == byte else '!' for at, byte in enumerate(stored)}
    return f's{number} version {replica.version}', places


def regions_row(regions):
    return 'regions', {at: 'd' if is_determined else 'u' for first, end, is_determined in regions for at in range(first, end)}


def picture(cell, title, file, index, handle):
    """The lines of one chunk's picture."""
    order = state.orders(cell.world).get(handle)
    entries = state.entries(order) if order else []
    holders = [(number, server) for number, server in enumerate(state.servers(cell.world), 1) if state.is_up(server) and handle in state.replicas(server)]
    regions = cell.regions(file, index)
    rows = [*map(entry_row, entries), *(replica_row(cell, number, server, handle) for number, server in holders), regions_row(regions)]
    end = max((place + 1 for _, places in rows for place in places), default=1)
    scale = -(-end // WIDTH)
    margin = max(MARGIN, *(len(label) for label, _ in rows))
    notes = ', a column is %d bytes' % scale if scale > 1 else ''
    yield f'  {title}, handle {handle}: its order, its replicas, and what is (d)etermined or (u)ndetermined{notes}'
    yield from (f'  {label:<{margin}}|{bar(places, scale)}' for label, places in rows)


def name_of(cell, file):
    """A name of a file, in what the master's log says."""
    names = state.names(state.logged(state.master(cell.world)))
    found = [bytes(path).decode('utf-8', 'replace') for path, node in names.items() if node[0] == 'File' and state.number(node[1]) == file]
    return min(found, default=f'file {file}, which has no name')


def all_pictures(cell):
    """The pictures of all chunks."""
    for file, handles in sorted(state.files_seen(cell.world).items()):
        for index, handle in enumerate(handles):
            yield from picture(cell, f'{name_of(cell, file)}, chunk {index}', file, index, handle)

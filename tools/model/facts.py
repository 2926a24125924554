"""Facts that hold of a cell after every event, whatever the list of events: what its nodes keep, and what they may change."""
import state
from cell import GOES
from words import apply


def stored_bytes(cell, server, handle):
    """The bytes that were stored in a replica, whatever rotted of it since."""
    index, disk = state.server_number(server) - 1, state.disk(server)
    return apply(cell.definition('StoredBytes', 'stored_bytes'), cell.world['observer'], index, handle, disk, disk['replicas'].items[handle])


class Broken(Exception):
    """A fact that does not hold."""


def is_part(entries, last_round, part, begin, end, must=None):
    """Whether the image of some selection of the entries up to a round, cut to begin..end, is this part.

    A selection leaves out none that must be in: the settled ones, or those that `must` says. From the last one back an
    entry is taken wherever it fits, which never stands in the way of an earlier one.
    """
    past = begin + len(part)
    is_cut = len(part) == end - begin
    covered = [False] * len(part)
    greatest = 0
    for entry in reversed(entries):
        if entry.round > last_round:
            continue
        finish = entry.offset + len(entry.content)
        places = range(max(begin, entry.offset), min(past, finish))
        fits = is_cut or finish <= past
        if fits and all(covered[p - begin] or part[p - begin] == entry.content[p - entry.offset] for p in places):
            greatest = max(greatest, finish)
            for place in places:
                covered[place - begin] = True
        elif entry.is_settled if must is None else (entry.round, entry.serial) in must:
            return False
    return (not part or greatest >= past) and all(is_covered or byte == 0 for is_covered, byte in zip(covered, part))


class Facts:
    """The facts of one cell. It remembers what earlier messages said."""

    def __init__(self, cell):
        self.cell = cell
        self.chunk = cell.settings['chunk']
        self.skew = cell.settings['skew_ms']
        # what servers said that they have, as (server, handle, version), and what members acknowledged, with the serial
        self.said = set()
        self.acked = set()
        self.order_numbers = set()
        # by (handle, version): the members; by (server, handle, version): the ends that the master told
        self.grants = {}
        self.ends = {}
        # by (handle, version): the size of the chunk that its Grant told
        self.sizes_granted = {}
        # the shape of each file, and of each chunk, also of those that are gone
        self.shapes = {}
        self.chunk_shapes = {}
        self.lapsed = set()

    def world(self):
        return self.cell.world

    def entries_of(self, handle, world=None):
        return state.entries(state.orders(world or self.world()).get(handle, []))

    def check(self, event, before):
        """All facts, after an event in the world before."""
        new = self.cell.messages[len(state.sent(before)) + 1:]
        self.check_messages(new)
        self.check_replicas(before)
        self.check_serials(before)
        self.check_drops(event, before)
        if state.orders(self.world()) is not state.orders(before):
            self.check_orders(before)
            self.check_new_entries(before)
            self.check_settled(event, before)
        self.check_log(before)
        self.check_shapes(event, before)
        self.check_told_shapes(new)
        if state.orders(self.world()) is not state.orders(before):
            self.check_entry_ends(before)
        self.check_open_files()
        self.check_chunks()
        self.check_expired(event, before)
        self.check_clones(new)
        self.check_snapshots()
        self.check_grants(before)
        self.check_leases()
        self.check_open_rounds()
        self.check_told_leases()
        self.check_lapsed(before)
        if not state.is_kept(self.world()):
            raise Broken('clocks or disks were not kept')

    # ------------------------------------------------------------ replicas and orders

    def check_replicas(self, before):
        """Each replica on a disk is the image of a selection of its chunk's order up to its version, and its serial is at least that of each settled entry under it."""
        old_orders = state.orders(before)
        for server, old in zip(state.servers(self.world()), state.servers(before)):
            known = state.replicas(old)
            for handle, replica in state.replicas(server).items():
                order = state.orders(self.world()).get(handle)
                if order is old_orders.get(handle) and known.get(handle) == replica:
                    continue
                entries = self.entries_of(handle)
                name = f'server {state.server_number(server)}: the replica of chunk {handle} at version {replica.version}'
                if not is_part(entries, replica.version, stored_bytes(self.cell, server, handle), 0, self.chunk + 1):
                    raise Broken(name + ' is no selection')
                if any(e.is_settled and e.round == replica.version and e.serial > replica.serial for e in entries):
                    raise Broken(name + ' has a last serial below that of a settled entry')

    def check_serials(self, before):
        """The last serial of a replica never falls under one version."""
        for server, old in zip(state.servers(self.world()), state.servers(before)):
            if state.disk(server) is state.disk(old):
                continue
            known = state.replicas(old)
            for handle, replica in state.replicas(server).items():
                was = known.get(handle)
                if was and was.version == replica.version and replica.serial < was.serial:
                    raise Broken(f'server {state.server_number(server)}: the last serial of chunk {handle} falls')

    def check_drops(self, event, before):
        """A replica goes by a Drop that names its version or a newer one, or because its bytes rotted."""
        if event[0] == 'Restart':
            return
        for server, old in zip(state.servers(self.world()), state.servers(before)):
            if state.disk(server) is state.disk(old):
                continue
            left = state.replicas(server)
            for handle, was in state.replicas(old).items():
                if handle not in left and not state.rotten_blocks(was, state.disk(old)['block']) and not self.drops(event, handle, was.version):
                    raise Broken(f'server {state.server_number(server)}: chunk {handle} at version {was.version} is dropped, and no order says so')

    def drops(self, event, handle, version):
        message = self.cell.messages[event[1]] if event[0] == 'Deliver' else None
        return message and message.kind == 'Drop' and state.number(message.body[2]) == handle and state.number(message.body[3]) >= version

    def check_orders(self, before):
        """Rounds never fall, serials rise within a round, and appends and pads begin at or past each settled end and each end of their own round."""
        old_orders = state.orders(before)
        for handle, order in state.orders(self.world()).items():
            if order is old_orders.get(handle):
                continue
            entries = self.entries_of(handle)
            for place, entry in enumerate(entries):
                for earlier in entries[:place]:
                    is_same = earlier.round == entry.round
                    if entry.round < earlier.round or (is_same and entry.serial <= earlier.serial):
                        raise Broken(f'chunk {handle}: a round or a serial falls')
                    if entry.kind != 'Write' and (earlier.is_settled or is_same) and earlier.offset + len(earlier.content) > entry.offset:
                        raise Broken(f'chunk {handle}: an append begins below an end')

    def new_entries(self, before):
        """The entries that an event placed, as (handle, entry). A copy of a chunk begins with the order of its source."""
        old = state.orders(before)
        found = []
        for handle, order in state.orders(self.world()).items():
            if order is old.get(handle) or len(order) <= len(old.get(handle, [])):
                continue
            entries = self.entries_of(handle)
            if handle not in old and (handle, entries[-1].round) not in self.grants:
                if not any(entries == self.entries_of(other) for other in old):
                    raise Broken(f'chunk {handle} begins with an order that is of no chunk')
            else:
                found.append((handle, entries[-1]))
        return found

    def check_new_entries(self, before):
        """Each new entry is of a granted version. None is placed in a shared chunk, nor for a call that is over while its client is up."""
        master = state.master(self.world())
        for handle, entry in self.new_entries(before):
            if (handle, entry.round) not in self.grants:
                raise Broken(f'chunk {handle}: an entry of a round that was not granted')
            row = state.rows(state.logged(master)).get(handle) if state.is_up(master) else None
            if row and row.references > 1:
                raise Broken(f'an entry in the shared chunk {handle}')
            client = state.client(before, entry.client)
            if state.is_up(client) and not state.is_in_call(client):
                raise Broken(f'an entry in chunk {handle} for a call that is over')

    def check_settled(self, event, before):
        """An entry becomes settled by its primary's step, while the lease counts and when each member has acknowledged it."""
        old_orders = state.orders(before)
        for handle, order in state.orders(self.world()).items():
            if order is old_orders.get(handle) or handle not in old_orders:
                continue
            old = self.entries_of(handle, before)
            for place, entry in enumerate(self.entries_of(handle)):
                if not entry.is_settled or (place < len(old) and old[place].is_settled):
                    continue
                members = self.grants.get((handle, entry.round), [])
                for member in members[1:]:
                    if (f's{member}', handle, entry.round, entry.serial) not in self.acked:
                        raise Broken(f'chunk {handle}: an entry is settled that server {member} did not acknowledge')
                primary = state.server(before, f's{members[0]}')
                lease = state.leases(primary).get(handle)
                if not lease or lease.version != entry.round or max(state.now_of(primary), state.number(event[2])) + self.skew >= lease.until:
                    raise Broken(f'chunk {handle}: an entry is settled by a server whose lease does not count')

    # ------------------------------------------------------------ shapes

    def asked_shape(self, event, before, path):
        """The shape that a file new at this path has to have: that of its Create, or of the file that a snapshot copied there."""
        message = self.cell.messages[event[1]] if event[0] == 'Deliver' else None
        call = message.body[3] if message and message.kind == 'Name' else ('None',)
        if call[0] == 'Create' and bytes(call[1]) == path:
            return call[2][1] if call[2][0] == 'Some' else state.usual_shape(self.cell.settings)
        old = state.master(before)
        pairs = state.snapshot_paths(old) + ([call[1:3]] if call[0] == 'Snapshot' else [])
        sources = {bytes(source) + path[len(copy):] for source, copy in pairs if path == bytes(copy) or path.startswith(bytes(copy) + b'/')}
        names = {bytes(other): node for other, node in state.names(state.logged(old)).items()}
        shapes = [self.shapes[names[source][1]] for source in sources if names.get(source, ('Dir',))[0] == 'File']
        return shapes[0] if len(shapes) == 1 else None

    def check_shapes(self, event, before):
        """A file keeps the shape that it was made with, and its chunks have it, also a copy under way."""
        master, old = state.master(self.world()), state.master(before)
        if not state.is_up(master) or state.logged(master) is state.logged(old):
            return
        logged = state.logged(master)
        shapes = state.shapes(logged)
        if sorted(shapes) != sorted(state.files(logged)):
            raise Broken('the files and the shapes differ')
        for file, shape in shapes.items():
            if file not in self.shapes:
                path = next(bytes(path) for path, node in state.names(logged).items() if node[0] == 'File' and node[1] == file)
                if self.asked_shape(event, before, path) not in (shape, None):
                    raise Broken(f'file {file} is made with another shape than was asked for')
            if self.shapes.setdefault(file, shape) != shape:
                raise Broken(f'the shape of file {file} changes')
        rows = state.rows(logged)
        owned = [(handle, file) for file, handles in state.files(logged).items() for handle in handles]
        for handle, file in owned + [(handle, copy['file']) for handle, copy in state.copies(logged).items()]:
            if rows[handle].shape != shapes[file]:
                raise Broken(f'chunk {handle} has another shape than file {file}')
            if self.chunk_shapes.setdefault(handle, shapes[file]) != shapes[file]:
                raise Broken(f'the shape of chunk {handle} changes')

    def size_of(self, file):
        """How large the chunks of a file are."""
        return self.shapes[file]['chunk'] if file in self.shapes else self.chunk

    def check_entry_ends(self, before):
        """A new entry ends within its chunk, and a pad with it; also where the file is collected since."""
        for handle, entry in self.new_entries(before):
            end, size = entry.offset + len(entry.content), self.chunk_shapes[handle]['chunk']
            if end > size or (entry.kind == 'Pad' and end != size):
                raise Broken(f'chunk {handle}: an entry goes past its end, or a pad ends before it')

    def check_told_shapes(self, new):
        """Named and Told tell the shape of their file, Grant and Forward the size of their chunk; also where the file is collected since."""
        for message in new:
            body = message.body
            if message.kind == 'Named' and body[2][0] == 'Opened' and body[2][2] != self.shapes[state.number(body[2][1])]:
                raise Broken('Named tells another shape than that of its file')
            if message.kind == 'Told' and body[2][0] == 'Some' and body[2][1]['shape'] != self.chunk_shapes[state.number(body[2][1]['handle'])]:
                raise Broken('Told tells another shape than that of its chunk')
            if message.kind == 'Grant' and body[5] != self.chunk_shapes[state.number(body[2])]['chunk']:
                raise Broken('Grant tells another size than that of its chunk')
            if message.kind == 'Forward' and body[5] != self.chunk_shapes[state.number(body[1])]['chunk']:
                raise Broken('Forward tells another size than that of its chunk')

    def check_open_files(self):
        """A client's open file has its file's shape."""
        for client in state.clients(self.world()):
            if any(shape != self.shapes[file] for file, shape in state.open_shapes(client).items()):
                raise Broken('a client has an open file of another shape')

    # ------------------------------------------------------------ the master's state

    def check_log(self, before):
        """The log replayed is the logged state, but for lease ends and copies under way."""
        master = state.master(self.world())
        old = state.master(before)
        if not state.is_up(master) or (state.logged(master) is state.logged(old) and state.log_of(master) is state.log_of(old)):
            return
        kept = apply(self.cell.definition('Logged', 'all_copies_given_up'), state.logged(master))
        replayed = self.replayed(state.log_of(master))
        for field in state.LOGGED_FIELDS:
            if kept[field] != replayed[field]:
                raise Broken(f'the log and the state differ in {field}')
        if state.files(kept) != state.files(replayed) or state.shapes(kept) != state.shapes(replayed) or without_lease_ends(kept) != without_lease_ends(replayed):
            raise Broken('the log and the state differ in the table of chunks')

    def replayed(self, log):
        return state.kept_of(log, lambda: apply(self.cell.definition('Logged', 'replayed'), log))

    def check_chunks(self):
        """The granted version is at most the issued one, the reference count is the number of owners, and each file has one name."""
        master = state.master(self.world())
        if not state.is_up(master):
            return
        logged = state.logged(master)
        counts = {}
        for handles in state.files(logged).values():
            for handle in handles:
                counts[handle] = counts.get(handle, 0) + 1
        for handle, row in state.rows(logged).items():
            if row.granted > row.issued:
                raise Broken(f'chunk {handle}: granted above issued')
            if counts.get(handle, 0) != row.references:
                raise Broken(f'chunk {handle}: the reference count is not the number of owners')
        if sorted(node[1] for node in state.names(logged).values() if node[0] == 'File') != sorted(state.files(logged)):
            raise Broken('the names and the files differ')

    def check_expired(self, event, before):
        """A file is collected once it was hidden for long enough."""
        old, new = state.master(before), state.master(self.world())
        if not (state.is_up(old) and state.is_up(new)) or event[0] == 'Restart' or state.logged(old) is state.logged(new):
            return
        left = state.files(state.logged(new))
        for path, node in state.names(state.logged(old)).items():
            if node[0] == 'File' and node[1] not in left:
                hidden = bytes(path)
                if not hidden.startswith(b'/.gone/') or int(hidden[7:27]) + self.cell.settings['keep_ms'] > state.now_of(new):
                    raise Broken(f'file {node[1]} is collected too early')

    def check_clones(self, new):
        """A Clone names a version that is granted or newer and under no attempt, of a chunk without a lease, and its source said that it has it."""
        master = state.master(self.world())
        for message in new:
            if message.kind != 'Clone':
                continue
            handle, version, source = state.numbers(message.body[2:5])
            row = state.rows(state.logged(master))[handle]
            if row.granted == 0 or version < row.granted or row.lease_end > state.now_of(master):
                raise Broken(f'chunk {handle}: a clone of a version that is not granted, or under a lease')
            if state.attempted_versions(master).get(handle) == version:
                raise Broken(f'chunk {handle}: a clone of version {version}, which is under attempt')
            if (f's{source}', handle, version) not in self.said:
                raise Broken(f'chunk {handle}: a clone from a server that did not say that it has version {version}')

    def check_snapshots(self):
        """No snapshot waits at its deadline or later."""
        master = state.master(self.world())
        if state.is_up(master) and any(s.deadline <= state.now_of(master) for s in state.pending_snapshots(master)):
            raise Broken('a snapshot waits past its deadline')

    # ------------------------------------------------------------ versions and leases

    def check_messages(self, new):
        """No two orders have one number; a version is granted once, to the first member, and its members said that they have it."""
        for message in new:
            body = message.body
            if message.kind in ('Recorded', 'Cloned'):
                self.said.add((message.sender, *state.numbers(body[1:3])))
            elif message.kind == 'Acked':
                self.acked.add((message.sender, *state.numbers(body[1:4])))
            elif message.kind == 'Report':
                self.said.update((message.sender, state.number(line['handle']), state.number(line['version'])) for line in body[1])
            elif message.kind in ('Create', 'SetVersion', 'Grant', 'Revoke', 'Drop', 'Clone', 'CopyLocal'):
                order = (body[1]['epoch'], body[1]['count'])
                if order in self.order_numbers:
                    raise Broken(f'two orders have the number {order}')
                self.order_numbers.add(order)
            if message.kind == 'Grant':
                self.check_grant(message.receiver, state.numbers(body[2:4]), state.numbers(body[6]))
                self.sizes_granted.setdefault(tuple(state.numbers(body[2:4])), body[5])
            if message.kind in ('Grant', 'Extend'):
                handle, version, end = state.numbers(body[2:5] if message.kind == 'Grant' else body[1:4])
                self.ends.setdefault((message.receiver, handle, version), set()).add(end)

    def check_grant(self, primary, version, members):
        if tuple(version) in self.grants:
            raise Broken(f'chunk and version {version} are granted twice')
        self.grants[tuple(version)] = members
        if any((f's{member}', *version) not in self.said for member in members):
            raise Broken(f'chunk and version {version} are granted, and a member did not record it')
        if f's{members[0]}' != primary:
            raise Broken(f'chunk and version {version} are granted to another one than the first member')

    def check_within(self, granted, logged, where):
        """Each granted version is at most what the chunk's row says, and its handle was used."""
        rows = state.rows(logged)
        for handle, version in granted.items():
            if handle >= state.next_handle(logged) or (handle in rows and rows[handle].granted < version):
                raise Broken(f'chunk {handle}: version {version} was granted, and {where} does not say so')

    def check_grants(self, before):
        """What was granted is in the state and in each log that a restart may find, and version attempts are above it."""
        master, old = state.master(self.world()), state.master(before)
        granted = {}
        for handle, version in self.grants:
            granted[handle] = max(version, granted.get(handle, 0))
        if state.is_up(master):
            self.check_within(granted, state.logged(master), 'the state')
            rows = state.rows(state.logged(master))
            for handle, version in state.attempted_versions(master).items():
                if version < 1 or (handle in rows and version <= rows[handle].granted):
                    raise Broken(f'chunk {handle}: the attempt at version {version} is not above what was granted')
        if state.log_of(master) is not state.log_of(old) or state.under_way(master) is not state.under_way(old):
            for made in {False, bool(state.under_way(master))}:
                found = apply(self.cell.definition('MasterStep', 'found_log'), master, {**GOES, 'decided': [made]})
                self.check_within(granted, self.replayed(found), 'the log')

    def counting(self):
        """The leases that may count, as (server, handle, lease)."""
        return [(server, handle, lease) for server in state.servers(self.world()) for handle, lease in state.leases(server).items()
                if state.greatest(self.world()) < lease.until]

    def check_leases(self):
        """A lease that may count for its primary has not ended at a master that is up and has the chunk."""
        master = state.master(self.world())
        if not state.is_up(master):
            return
        rows = state.rows(state.logged(master))
        for server, handle, lease in self.counting():
            row = rows.get(handle)
            if not row:
                continue
            if row.granted != lease.version or row.lease_end < lease.until:
                raise Broken(f'chunk {handle}: a lease that may count ended at the master')
            if row.primary != state.server_number(server) or row.members != lease.members:
                raise Broken(f'chunk {handle}: a lease that may count is of another primary or of other members than the master logged')
            if row.references > 1:
                raise Broken(f'chunk {handle}: shared, and a lease of it may count')

    def check_open_rounds(self):
        """At most one lease of a chunk may count, whether its master is up or not."""
        handles = [handle for _, handle, _ in self.counting()]
        if len(handles) != len(set(handles)):
            raise Broken('two leases of a chunk may count')

    def check_told_leases(self):
        """A lease is of a Grant to its server, with these members and this size of the chunk, and ends as that or an Extend of its version tells."""
        for server in state.servers(self.world()):
            for handle, lease in state.leases(server).items():
                ends = self.ends.get((f's{state.server_number(server)}', handle, lease.version), ())
                is_sized = self.sizes_granted.get((handle, lease.version)) == lease.chunk
                if self.grants.get((handle, lease.version)) != lease.members or lease.until not in ends or not is_sized:
                    raise Broken(f'chunk {handle}: a lease that the master did not tell')

    def check_lapsed(self, before):
        """A lease that no longer counts for its primary never counts again, nor is one extended that ended at the master."""
        for server in state.servers(self.world()):
            for handle, held in state.leases(server).items():
                lease = (state.server_number(server), handle, held.version)
                if state.now_of(server) + self.skew >= held.until:
                    self.lapsed.add(lease)
                elif lease in self.lapsed:
                    raise Broken(f'chunk {handle}: a lease that lapsed counts again at server {lease[0]}')
        old, new = state.master(before), state.master(self.world())
        if not (state.is_up(old) and state.is_up(new) and state.epoch(state.logged(old)) == state.epoch(state.logged(new))):
            return
        old_rows = state.rows(state.logged(old))
        for handle, row in state.rows(state.logged(new)).items():
            was = old_rows.get(handle)
            if was and was.granted == row.granted and was.lease_end < row.lease_end and was.lease_end <= state.now_of(new):
                raise Broken(f'chunk {handle}: a lease that ended at the master is extended')


def without_lease_ends(logged):
    return {handle: row._replace(lease_end=0) for handle, row in state.rows(logged).items()}

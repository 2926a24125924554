"""Random lawful lists of events."""
import collections
import random

import state
from answer_facts import AnswerFacts
from cell import GOES, Cell, call_of, node_name, node_of, wrapped
from facts import Broken, Facts, stored_bytes
from rebased import Rebases, Unlike

PATHS = [b'/a', b'/d', b'/d/f', b'/d/g', b'/e', b'/e/f']
# names that soon fill a log of 4,096 bytes
LONG = [b'/d/' + bytes([113 + i]) * 250 for i in range(3)]
# the calls that each list begins with, so that there is a shared chunk soon
FIRST_CALLS = [
    ('mkdir', b'/d'), ('create', b'/d/f'), ('open', b'/d/f'), ('append', 1, b'z' * 13), ('snapshot', b'/d', b'/e'),
    ('append', 1, b'y' * 13), ('open', b'/e/f')]
# and of two chunks, of which one is copied while the other has a lease
FIRST_OF_TWO_CHUNKS = [
    ('mkdir', b'/d'), ('create', b'/d/f'), ('open', b'/d/f'), ('write', 1, 0, b'z' * 100), ('snapshot', b'/d', b'/e'),
    ('write', 1, 70, b'y' * 20), ('write', 1, 0, b'x' * 20)]
LONG_CALLS = [('create', LONG[0]), ('rename', LONG[0], LONG[1]), ('rename', LONG[1], LONG[2]), ('rename', LONG[2], LONG[0])]
NAME_CALLS = ['create', 'create', 'mkdir', 'open', 'open', 'open', 'delete', 'rename', 'snapshot', 'snapshot', 'snapshot', 'list', 'rmdir']
FILE_CALLS = ['append', 'append', 'append', 'append', 'write', 'write', 'read', 'read', 'length']

REPEATED = [
    ('Acked',), ('Acked',), ('Forward', 'Push'), ('Mutate', 'Push'), ('Grant', 'Extend'), ('SetVersion', 'Recorded'), ('Revoke', 'Revoked'),
    ('CopyAsk', 'Image', 'Cloned'), ('Report', 'Drop'), ('Done', 'Refused', 'Told'), ()]
# orders that often come much later
DELAYED = ['SetVersion', 'SetVersion', 'Create', 'Grant', 'Revoke', 'CopyLocal', 'Told', 'Refused', None, None, None, None]
LOST = ['Forward', 'Forward', 'Acked', 'Done', 'Mutate', 'Recorded', 'Grant', 'Revoked', None, None, None]


def random_settings(rnd):
    return {
        'chunk': 64, 'block': 16, 'lease_ms': rnd.choice([300, 300, 1000, 3000]), 'skew_ms': rnd.choice([0, 100, 250]),
        'attempt_ms': rnd.choice([200, 400, 1500]), 'attempts': rnd.choice([1, 2, 3]), 'goal': rnd.choice([2, 2, 3]),
        'cache_ms': rnd.choice([500, 5000]), 'keep_ms': rnd.choice([200, 1000]), 'push_entries': rnd.choice([1, 2, 8]),
        'slots': rnd.choice([4, 16, 16]), 'log_bytes': rnd.choice([4096, 4096, 100000])}


# the goals of files that are made with a shape, by how much larger or smaller than the settings' their chunks would be: some don't fit
SHAPES = [(0, 1), (0, 2), (0, 3), (0, 1), (0, 3), (0, 2), (0, 3), (8, 2), (-16, 2), (16, 2), (0, 0), (0, 9)]
# the same where the settings' chunks are of 128 bytes
SIZES = [(-64, 1), (-64, 2), (-64, 3), (-48, 2), (-32, 2), (-16, 1), (0, 3), (-56, 2), (-80, 2), (16, 2), (-64, 0), (-64, 9)]


class Explorer:
    """One random list of events."""

    def __init__(self, seed, has_faults, program, are_rebased=False):
        self.rnd = rnd = random.Random(seed)
        self.rebases = Rebases(seed, are_rebased)
        self.has_faults = has_faults
        # in two of three lists files are made with shapes; what these are doesn't change what else happens
        self.shaping = random.Random(seed + 1_000_003)
        self.has_shapes = seed % 3 != 0
        # in one of these two, of sizes of their own
        self.has_sizes = seed % 3 == 2
        settings = random_settings(rnd) | ({'chunk': 128} if self.has_sizes else {})
        self.cell = Cell(settings, rnd.choice([2, 3, 3, 4]), 2, program=program)
        self.facts = Facts(self.cell)
        self.answer_facts = AnswerFacts(self.cell, self.facts)
        # how often a later message comes first, one is lost or comes late, how often time passes, how often a call is on names
        self.disorder = rnd.choice([.02, .1, .3])
        self.loss = rnd.choice([0, .01, .05])
        self.delaying = rnd.choice([0, .02, .06])
        # how often a message comes again; the kinds that most often do, and that are lost most often, if any
        self.repeating = rnd.choice([.03, .06, .12])
        self.repeated_kinds = rnd.choice(REPEATED)
        self.lost_kind = rnd.choice(LOST)
        # in each fifth list acknowledgements often come after the lease's end
        self.lapsing = seed % 5 == 4
        delayed = rnd.choice(DELAYED)
        self.delayed_kind = 'Acked' if self.lapsing else delayed
        self.haste = rnd.choice([.2, .4])
        self.naming = rnd.choice([.04, .15, .3])
        # how often there is a snapshot while a chunk is copied, if at all, or while an acknowledgement comes late
        self.snapping = rnd.choice([0, 0, .5]) or (.3 if self.lapsing else 0)
        self.paths = rnd.choice([PATHS, [b'/d/f', b'/e/f'], [b'/d/f']])
        # how often a server is put down or restarted, and a byte rots
        self.restarting = rnd.choice([0, .001, .004])
        self.stopping = rnd.choice([.001, .004, .01])
        self.rotting = rnd.choice([0, .003, .01])
        # how often nothing comes to pass for as long as a lease
        self.idling = rnd.choice([0, .003, .008])
        self.nodes_that_stop = [node for node in self.cell.nodes() if node[0] != 'c']
        self.clock = 0
        self.first_calls = rnd.choice([FIRST_CALLS, FIRST_OF_TWO_CHUNKS]) + (LONG_CALLS if rnd.random() < .6 else [])
        self.copies = self.letter = 0
        self.pending = []
        # messages that come later, with the count of events at which they do; and all messages by kind
        self.aside = []
        self.by_kind = {}
        self.counts = collections.Counter()
        self.granted = set()

    # ------------------------------------------------------------ choices

    def choice(self, event, node):
        rnd = self.rnd
        choice = {**GOES, 'order': [rnd.randrange(4) for _ in range(rnd.randrange(3))], 'decided': [rnd.random() < .5 for _ in range(2)]}
        if self.has_faults:
            # a client that is down stays down
            if rnd.random() < (.0002 if node[0] == 'c' else .2 if event[0] == 'Rot' else self.stopping):
                choice['ending'] = rnd.choice([('Lost',), ('Stops', rnd.randrange(3))])
            if rnd.random() < .02:
                choice['refused'] = [True]
        return choice

    def name_call(self):
        rnd = self.rnd
        name = rnd.choice(NAME_CALLS)
        if name in ('create', 'delete', 'rename') and rnd.random() < .4:
            return (name, rnd.choice(LONG), *((rnd.choice(LONG),) if name == 'rename' else ()))
        if name == 'snapshot' and self.copies < 8 and rnd.random() < .6:
            self.copies += 1
            copy = b'/s%d' % self.copies
            self.paths = [path for path in self.paths if path[:2] != b'/s'] + [copy]
            return (name, rnd.choice([b'/d/f', b'/d/f', b'/e/f', b'/d/g']), copy)
        files = [bytes(path) for path, node in state.names(state.logged(state.master(self.cell.world))).items() if node[0] == 'File']
        first = rnd.choice(self.paths)
        if name in ('open', 'delete', 'rename') and first not in files and rnd.random() < .8:
            # mostly a name that is there, or this one is made
            live = [path for path in files if not path.startswith(b'/.gone')]
            name, first = ('create', first) if name != 'open' or not live else (name, rnd.choice(live + files))
        return (name, first, *((rnd.choice(PATHS),) if name in ('rename', 'snapshot') else ()))

    def late_handles(self):
        """The chunks of which an acknowledgement comes late."""
        late = [self.cell.messages[number] for _, number in self.aside] if self.lapsing else []
        return {state.number(message.body[1]) for message in late if message.kind == 'Acked'}

    def lapsed_files(self, logged):
        """The files with a chunk of which an acknowledgement comes after the lease's end."""
        rows = state.rows(logged)
        lapsed = {handle for handle in self.late_handles() if handle in rows and rows[handle].lease_end <= self.clock}
        return {file for file, handles in state.files(logged).items() if lapsed.intersection(state.numbers(handles))}

    def snapshot_beside_another_step(self):
        """A snapshot of a file for which a chunk is being copied, or an acknowledgement comes after the lease's end, or of its directory; or None."""
        logged = state.logged(state.master(self.cell.world))
        files = {copy['file'] for copy in state.copies(logged).values()} | self.lapsed_files(logged)
        paths = sorted(bytes(path) for path, node in state.names(logged).items() if node[0] == 'File' and node[1] in files)
        if not paths or self.rnd.random() >= self.snapping:
            return None
        self.copies += 1
        path = self.rnd.choice(paths)
        return ('snapshot', self.rnd.choice([path, path.rpartition(b'/')[0] or path]), b'/s%d' % self.copies)

    def file_call(self, descriptors):
        rnd = self.rnd
        fd = rnd.choice(descriptors[-4:])
        self.letter = (self.letter + 1) % 26
        byte = bytes([97 + self.letter])
        name = rnd.choice(FILE_CALLS) if rnd.random() < .99 else 'close'
        if name == 'append':
            return (name, fd, byte * rnd.choice([5, 13, 16, 16]))
        if name == 'write':
            # now and then past all chunks
            return (name, fd, rnd.choice([0, 0, rnd.randrange(0, 140)]) if rnd.random() < .9 else 400, byte * rnd.randrange(1, 60))
        return (name, fd, rnd.choice([0, rnd.randrange(0, 100)]), rnd.randrange(1, 150)) if name == 'read' else (name, fd)

    def call_event(self, client, now, snapshot=None):
        rnd, world = self.rnd, self.cell.world
        descriptors = state.descriptors(state.client(world, client))
        call = snapshot or self.name_call() if snapshot or not descriptors or rnd.random() < self.naming else self.file_call(sorted(descriptors))
        if not snapshot and self.first_calls and (self.first_calls[0][0] not in ('append', 'write') or 1 in descriptors):
            call, self.first_calls = self.first_calls[0], self.first_calls[1:]
        if call[0] == 'create' and self.has_shapes and self.shaping.random() < .8:
            # the first ones fit
            shapes = SIZES if self.has_sizes else SHAPES
            more, goal = self.shaping.choice(shapes[:7] if self.first_calls else shapes)
            call = (*call, self.cell.settings['chunk'] + more, goal)
        if call[0] == 'append' and self.has_sizes and self.shaping.random() < .4:
            call = (*call[:2], call[2][:1] * self.shaping.choice([17, 20, 24, 28, 32, 33]))
        file = descriptors.get(call[1]) if call[0] in ('append', 'write', 'read', 'length', 'close') else None
        self.answer_facts.called(client, call, state.calls_made(world, client) + 1, file)
        return ('Call', wrapped(client), call_of(call), wrapped(now))

    def rot_event(self):
        """A byte of a replica that is there becomes another, or again the one that was stored."""
        rnd = self.rnd
        server = rnd.choice(state.servers(self.cell.world))
        replicas = state.replicas(server)
        if not replicas:
            return None
        handle = rnd.choice(sorted(replicas))
        size = replicas[handle].count
        if not size:
            return None
        self.counts['rots'] += 1
        stored = stored_bytes(self.cell, server, handle)
        changed = [place for place in range(size) if replicas[handle].bytes[place] != stored[place]]
        place = rnd.choice(changed) if changed and rnd.random() < .5 else rnd.randrange(size)
        byte = stored[place] if rnd.random() < .5 else rnd.randrange(256)
        return ('Rot', wrapped(state.server_number(server)), wrapped(handle), place, byte)

    # ------------------------------------------------------------ events

    def next_event(self, now):
        """An event and its node, or None."""
        rnd = self.rnd
        cell = self.cell
        restart = self.rebases.next_restart(cell, now)
        if restart:
            return restart, node_name(restart[1])
        for node in self.nodes_that_stop:
            found = state.master(cell.world) if node == 'master' else state.server(cell.world, node)
            if not state.is_up(found) and rnd.random() < .2:
                return ('Restart', node_of(node), wrapped(now)), node
        chance = rnd.random()
        if chance < self.restarting:
            node = rnd.choice(self.nodes_that_stop)
            return ('Restart', node_of(node), wrapped(now)), node
        if rnd.random() < self.rotting:
            event = self.rot_event()
            return event and (event, 's1')
        free = [count for count in (1, 2) if state.is_up(state.client(cell.world, count)) and not cell.is_open(f'c{count}')]
        snapshot = self.snapshot_beside_another_step() if free else None
        if snapshot:
            client = rnd.choice(free)
            return self.call_event(client, now, snapshot), f'c{client}'
        # the second client is kept for these snapshots
        free = [client for client in free if client == 1 or not self.snapping]
        if chance < .15 and free:
            client = rnd.choice(free)
            return self.call_event(client, now), f'c{client}'
        if chance < .82 and self.pending or chance < .2 and self.by_kind:
            number = self.next_message()
            return number and (('Deliver', number, wrapped(now)), cell.messages[number].receiver)
        node = rnd.choice(cell.nodes())
        return ('Tick', node_of(node), wrapped(now)), node

    def next_message(self):
        """Mostly the oldest that wasn't delivered, else another one, or an old one of some kind again; some are lost, and some come much later."""
        rnd = self.rnd
        if not self.pending or rnd.random() < self.repeating:
            kinds = [kind for kind in self.repeated_kinds if kind in self.by_kind]
            kind = rnd.choice(kinds if kinds and rnd.random() < .7 else sorted(self.by_kind))
            return rnd.choice(self.by_kind[kind][-40:])
        number = self.pending.pop(rnd.randrange(len(self.pending)) if rnd.random() < self.disorder else 0)
        if rnd.random() < (.3 if self.cell.messages[number].kind == self.delayed_kind else self.delaying):
            self.aside.append((self.counts['events'] + rnd.randrange(20, 400), number))
            return None
        is_lost = rnd.random() < (.4 if self.cell.messages[number].kind == self.lost_kind else self.loss)
        return None if is_lost else number

    def take_back(self):
        """Messages that were put aside are there again."""
        now = self.counts['events']
        self.pending += [number for until, number in self.aside if until <= now]
        self.aside = [(until, number) for until, number in self.aside if until > now]

    def step(self):
        rnd = self.rnd
        cell = self.cell
        self.clock += rnd.choice([2, 5, 20, 60]) if rnd.random() < self.haste / 2 else 0
        if not self.pending and rnd.random() < .15:
            self.clock += rnd.choice([30, 100])
        if rnd.random() < (.1 if self.late_handles() else self.idling):
            self.clock += cell.settings['lease_ms'] + cell.settings['skew_ms']
        found = self.next_event(max(0, self.clock - rnd.randrange(cell.settings['skew_ms'] + 1)))
        if not found:
            return
        event, node = found
        before = cell.world
        count = len(cell.messages)
        try:
            answer = cell.take(event, self.choice(event, node))
        except Unlike as difference:
            raise Broken(f'a cell that dropped its messages: {difference}') from None
        for message in cell.messages[count:]:
            self.pending.append(message.number)
            self.by_kind.setdefault(message.kind, []).append(message.number)
        if self.aside:
            self.take_back()
        self.count(event, before, cell.messages[count:], answer)
        self.facts.check(event, before)
        self.answer_facts.check(event, before, answer)
        if event is self.rebases.last_restart:
            self.drop_messages()

    def is_shaped(self, message):
        return message.kind == 'Name' and message.body[3][0] == 'Create' and message.body[3][2][0] == 'Some'

    def drop_messages(self):
        self.counts['rebases'] += 1
        self.pending, self.aside, self.by_kind = [], [], {}
        self.cell.drop_messages()

    def count(self, event, before, new, answer):
        """What happened often enough to have been tested."""
        counts = self.counts
        counts['events'] += 1
        counts['shapes'] += event[0] == 'Deliver' and self.is_shaped(self.cell.messages[event[1]])
        counts['restarts'] += event[0] == 'Restart'
        master = state.master(self.cell.world)
        counts['checkpoints'] += state.is_up(master) and state.checkpoint_of(master) is not state.checkpoint_of(state.master(before))
        for message in new:
            if message.kind == 'Grant':
                handle = state.number(message.body[2])
                counts['second rounds'] += handle in self.granted
                self.granted.add(handle)
            counts['clones'] += message.kind == 'Cloned'
            counts['pads'] += message.kind == 'Forward' and message.body[6][0] == 'Pad'
        if event[0] in ('Deliver', 'Tick', 'Call'):
            nodes = [state.master, *[lambda w, i=i: state.servers(w)[i] for i in range(self.cell.server_count)]]
            counts['stops'] += any(state.is_up(node(before)) and not state.is_up(node(self.cell.world)) for node in nodes)
        if answer is not None:
            counts[answer[1][0] if answer[0] == 'Refused' else answer[0]] += 1
            client = int(self.cell.messages[event[1]].receiver[1:]) if event[0] == 'Deliver' else None
            counts['snapshots'] += answer[0] == 'Done' and client is not None and self.answer_facts.calls[client].call[0] == 'snapshot'

"""Nodes whose disks a script stops: what their programs make of the disk's calls becomes the choices of the definitions."""
import state
from cell import GOES, node_of
from words import apply

# the calls of the disk by which a record is appended, and by which a checkpoint is written behind a gate that is closed first
APPEND = ['write', 'sync', 'gate', 'sync of the gate']
CLOSE = ['closed gate', 'sync of the closed gate']
# by which a restart reads the log
READING = ['sync', 'head', 'first number', 'second number', 'area']
# by which a restart of a server reads its disk's head and gate; and by which blocks of a replica are read
OPENING = ['sync', 'head', 'sync', 'gate']
BLOCKS = ['blocks', 'digests']


class StoppedDisk:
    """A node's disk. It chooses how that node's steps end; `choose`, where it is given, makes the choice of each other event."""

    def __init__(self, node, choose=None):
        self.node = node_of(node)
        self.choose = choose
        self.left = None
        self.torn = b'new'
        self.next = None

    def stop(self, cell, calls, torn):
        if state.is_up(self.state_in(cell)):
            self.left, self.torn = calls, torn
        else:
            self.next = (calls, torn)

    def begin_again(self):
        self.left, self.torn = self.next or (None, b'new')
        self.next = None

    def state_in(self, cell):
        return state.master(cell.world) if self.node[0] == 'Master' else state.servers(cell.world)[state.number(self.node[1]) - 1]

    def fails(self, calls):
        """The first of these calls that fails, if one does."""
        for call in calls:
            if self.left == 0:
                return call
            if self.left is not None:
                self.left -= 1
        return None

    def input_of(self, event, cell):
        """What the node takes in this event, if it takes anything."""
        if event[0] == 'Tick' and event[1] == self.node:
            return ('Tick',)
        if event[0] == 'Deliver' and node_of(cell.messages[event[1]].receiver) == self.node:
            return ('Deliver', state.sent(cell.world)[event[1] - 1])
        return None

    def __call__(self, event, cell):
        if event[0] == 'Restart' and event[1] == self.node:
            return self.restart(cell, state.number(event[2]))
        if event[0] == 'Rot' and ('Server', event[1]) == self.node:
            return {**GOES, **self.rot(cell, *event[2:4])}
        given = self.input_of(event, cell)
        node = self.state_in(cell)
        if given is None or not state.is_up(node):
            return self.choose(event, cell) if self.choose else GOES
        return {**GOES, **self.step(cell, node, state.number(event[-1]), given)}


class LogDisk(StoppedDisk):
    """That of the master's log."""

    def __init__(self, cell, choose=None):
        super().__init__('master', choose)
        self.failed = None
        self.made = None
        self.is_other_open = bool(state.checkpoint_of(state.master(cell.world)))

    def step(self, cell, master, moment, given):
        return self.ending(apply(cell.definition('MasterStep', 'master_goes'), master, moment, given, [])['changes'])

    def ending(self, changes):
        """How a step with these changes of the log ends."""
        for made, change in enumerate(changes):
            is_checkpoint = change[0] == 'WriteCheckpoint'
            calls = (['other gate'] + (CLOSE if self.is_other_open else []) if is_checkpoint else []) + APPEND
            failed = self.fails(calls)
            if failed:
                self.failed = (is_checkpoint, failed)
                return {'ending': ('Stops', made)}
            self.is_other_open |= is_checkpoint
        return {}

    def settle(self):
        """What was written since the last sync is settled as the disk begins again."""
        if self.failed:
            is_checkpoint, call = self.failed
            self.made = call in APPEND[2:] and self.torn in (b'new', b'1')
            if call in CLOSE:
                self.is_other_open = self.torn in (b'old', b'1')
            elif is_checkpoint and call in APPEND:
                self.is_other_open = self.made
        self.failed = None
        self.begin_again()

    def restart(self, cell, now):
        self.settle()
        if self.fails(READING):
            return {**GOES, 'ending': ('Lost',)}
        choice = {**GOES, 'decided': [] if self.made is None else [self.made]}
        self.made = None
        master = state.master(cell.world)
        found = apply(cell.definition('MasterStep', 'found_log'), master, choice)
        started = apply(cell.definition('MasterStep', 'started_master'), master['config'], master['server_count'], found, now)
        doing = apply(cell.definition('MasterStep', 'opening'), started)
        return {**choice, **self.ending(doing['changes'])}


class StoreDisk(StoppedDisk):
    """That of a server's replicas."""

    def __init__(self, node, choose=None):
        super().__init__(node, choose)
        # the call of a change that failed, and whether it is of a change of the step, which is made or not as the disk begins again
        self.failed = None
        self.is_undecided = False
        self.made = None
        # how many ranges the last change has, and whether it stands behind an open gate
        self.ranges = 0
        self.is_open = False

    def step(self, cell, server, moment, given):
        doing = apply(cell.definition('ServerStep', 'server_goes'), server, moment, given)
        if given[0] == 'Deliver' and any(self.fails(reads) for reads in self.looks(cell, server, given[1]['body'], doing)):
            return {'ending': ('Lost',)}
        for made, change in enumerate(doing['changes']):
            if self.fails(self.reads_of(cell, server, change)):
                self.made = False
            elif self.changes(self.ranges_of(change)):
                continue
            else:
                self.is_undecided = True
            return {'ending': ('Stops', made)}
        return {}

    # what is read

    def looks(self, cell, server, body, doing):
        """The reads of each look at the disk before anything is changed."""
        kinds = {sent['body'][0] for sent in doing['sent']} | {change[0] for change in doing['changes']}
        if body[0] == 'Mutate':
            for seen in doing['seen']:
                if seen[0] == 'Numbered':
                    yield self.edges(cell, server, state.number(body[2]), *range_of(seen[5], seen[5][2:]))
        elif body[0] == 'Forward' and kinds & {'Write', 'Zero', 'Remove'}:
            pushed = apply(cell.program.function('data_push', 'Buffers', 'data_of'), server['pushed'], body[4])
            yield self.edges(cell, server, state.number(body[1]), *range_of(body[6], pushed[1:]))
        elif body[0] == 'Read' and kinds & {'Bytes', 'Remove'}:
            yield self.reads(server, state.number(body[2]), body[4], body[5])
        elif body[0] == 'CopyAsk' and kinds & {'Image', 'Remove'}:
            yield self.reads(server, state.number(body[1]))
        elif body[0] == 'CopyLocal' and 'SetOrder' in kinds and state.number(body[3]) == self.version(server, state.number(body[2])):
            yield self.reads(server, state.number(body[2]))

    @staticmethod
    def version(server, handle):
        replica = state.replicas(server).get(handle)
        return replica and replica.version

    @staticmethod
    def reads(server, handle, offset=0, count=1 << 64):
        return BLOCKS if offset < min(offset + count, state.replicas(server)[handle].count) else []

    @staticmethod
    def edges(cell, server, handle, offset, end):
        """The reads of the first and the last block of a range that is written over."""
        block = state.disk(server)['block']
        if end <= offset or offset % block == end % block == 0:
            return []
        first, last = offset // block, (end - 1) // block
        matches = cell.program.function('replica_store', 'Replicas', 'block_matches')
        return BLOCKS if first == last or not apply(matches, block, state.disk(server)['replicas'].items[handle], first) else 2 * BLOCKS

    def reads_of(self, cell, server, change):
        """What is read before a change is made: the first and the last block of a range."""
        if change[0] in ('Write', 'Zero'):
            size = len(change[4]) if change[0] == 'Write' else change[4]
            return self.edges(cell, server, state.number(change[1]), change[3], change[3] + size)
        return self.reads(server, state.number(change[1])) if change[0] == 'Copy' else []

    # changes through the redo area

    @staticmethod
    def ranges_of(change):
        return 3 if change[0] in ('Write', 'Zero') and change[4] else 1

    def finishes(self):
        """Whether the ranges are put in place, and the gate is closed."""
        self.failed = self.fails(['place'] * self.ranges + ['sync of the places'] + CLOSE)
        self.is_open = self.failed is not None
        return not self.is_open

    def changes(self, ranges):
        self.ranges = ranges
        self.failed = self.fails(['stage'] * (1 + 3 * ranges) + ['sync', 'gate', 'sync of the gate'])
        return self.failed is None and self.finishes()

    def rot(self, cell, handle, place):
        """How a rot ends."""
        server = self.state_in(cell)
        replica = state.disk(server)['replicas'].items.get(state.number(handle))
        if not state.is_up(server) or replica is None or place >= server['config']['chunk']:
            return {}
        if self.changes(1):
            return {}
        self.is_undecided = True
        return {'ending': ('Stops', 0)}

    # a restart

    def settle(self):
        """What was written since the last sync is settled as the disk begins again."""
        if self.failed in ('stage', 'sync'):
            self.is_open = False
        elif self.failed in ('gate', 'sync of the gate'):
            self.is_open = self.torn in (b'new', b'1')
        elif self.failed in CLOSE:
            self.is_open = self.torn in (b'old', b'1')
        if self.is_undecided:
            self.made = self.is_open or self.failed in CLOSE
        self.failed, self.is_undecided = None, False
        self.begin_again()

    def opens(self, slots):
        """Whether the disk is read."""
        if self.fails(OPENING) or self.is_open and (self.fails(['count', 'ranges']) or not self.finishes()):
            return False
        return not self.fails(['order'] + slots * ['header'])

    def restart(self, cell, _):
        self.settle()
        if not self.opens(self.state_in(cell)['config']['slots']):
            return {**GOES, 'ending': ('Lost',)}
        choice = {**GOES, 'decided': [] if self.made is None else [self.made]}
        self.made = None
        return choice


def range_of(change, data):
    """Where a mutation begins and ends: of a write or an append the data are given as a list of one; a pad says where it ends."""
    return change[1], change[2] if change[0] == 'Pad' else change[1] + len(data[0])

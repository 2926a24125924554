"""Facts about what a client is told and answers, and about what servers answer to reads."""
import state
from facts import Broken, is_part

NAME_CALLS = ('mkdir', 'rmdir', 'create', 'delete', 'rename', 'snapshot')


class Attempt:
    """A Mutate that a client sent, and the kind of the first answer to it."""

    def __init__(self, number, version, deadline):
        self.number = number
        self.version = version
        self.deadline = deadline
        self.answer = None


class OpenCall:
    """A client's call, with the files' chunks and the settled entries as it was made."""

    def __init__(self, call, number, file, world):
        self.call = call
        self.number = number
        self.file = file
        self.handles = state.files_seen(world).get(file, [])
        self.world = world
        self.attempts = []
        # of its last Name: the number and the deadline
        self.name = None
        self.is_named = False


class AnswerFacts:
    """The facts of one cell's answers. It remembers what clients asked and were told."""

    def __init__(self, cell, facts):
        self.cell = cell
        self.facts = facts
        self.chunk = cell.settings['chunk']
        self.block = cell.settings['block']
        self.skew = cell.settings['skew_ms']
        self.calls = {}
        # by client and number of an ask: its file; by client and number of a Len: its chunk
        self.asks = {}
        self.lengths = {}
        # of the chunks of which a client was told since it last opened the file, by (client, file, handle): when, by its own clock
        self.told = {}

    def called(self, client, call, number, file):
        self.calls[client] = OpenCall(call, number, file, self.cell.world)

    def check(self, event, before, answer):
        new = self.cell.messages[len(state.sent(before)) + 1:]
        delivered = self.cell.messages[event[1]] if event[0] == 'Deliver' else None
        if delivered and delivered.receiver[0] == 'c':
            self.take(int(delivered.receiver[1:]), delivered)
        for message in new:
            if message.sender[0] == 'c':
                self.check_sent(int(message.sender[1:]), message)
            elif message.kind in ('Bytes', 'LenIs', 'Image'):
                self.check_read(message, delivered, before)
        if delivered and delivered.kind in ('Ask', 'Name') and delivered.receiver == 'master':
            self.check_master(delivered, before)
        for handle, entry in self.facts.new_entries(before):
            self.check_placed(handle, entry, max(state.number(event[2]), state.now_of(state.server(before, delivered.receiver))))
        if answer is not None:
            client = int(delivered.receiver[1:]) if delivered else state.number(event[1] if event[0] == 'Call' else event[1][1])
            self.check_answer(client, self.calls[client], answer, delivered)

    def take(self, client, message):
        """What a client is told."""
        body = message.body
        call = self.calls.get(client)
        if message.kind == 'Told' and body[2][0] == 'Some':
            file = self.asks.get((client, body[1]))
            self.told[client, file, state.number(body[2][1]['handle'])] = self.now_of(client)
        if call and message.kind in ('Done', 'Refused'):
            number = body[1]['seq'] if message.kind == 'Done' else body[1]
            for attempt in call.attempts:
                if attempt.number == number and attempt.answer is None:
                    attempt.answer = body[2][0] if message.kind == 'Refused' else 'Done'
        if call and call.name and message.kind == 'Named' and body[1] == call.name[0]:
            call.is_named = True

    def check_sent(self, client, message):
        """A client uses the location of a chunk only where it was told of it since it opened the file, and less than the cache's time before."""
        body = message.body
        call = self.calls[client]
        handle = None
        if message.kind == 'Ask':
            self.asks[client, body[1]] = state.number(body[2])
        elif message.kind == 'Name':
            call.name = (body[1], state.number(body[2]))
        elif message.kind in ('Read', 'Len'):
            handle = state.number(body[2])
            self.lengths[client, body[1]] = handle
        elif message.kind == 'Mutate':
            handle, version = state.numbers(body[2:4])
            call.attempts.append(Attempt(body[1]['seq'], version, state.number(body[5])))
        if handle is None:
            return
        told = self.told.get((client, call.file, handle))
        if told is None:
            raise Broken(f'client {client} uses a location of chunk {handle} that it was not told since it opened the file')
        if self.now_of(client) - told >= self.cell.settings['cache_ms']:
            raise Broken(f'client {client} uses a location of chunk {handle} that it was told too long before')

    def now_of(self, client):
        return state.now_of(state.client(self.cell.world, client))

    def check_read(self, message, asked, before):
        """What a server reads matches its checksums, and is of a selection up to the version that was named."""
        server = state.server(before, message.sender)
        handle, version = state.numbers(asked.body[2:4] if asked.kind in ('Read', 'Len') else asked.body[1:3])
        replica = state.replicas(server)[handle]
        begin, end = asked.body[4:6] if asked.kind == 'Read' else (0, self.chunk + 1)
        end = begin + end if asked.kind == 'Read' else end
        entries = self.facts.entries_of(handle)
        if message.kind == 'LenIs':
            part = None if replica.version != version else replica.bytes[:replica.count]
            if part is None or message.body[2] != len(part):
                raise Broken(f'{message.sender} tells another length of chunk {handle} than that of its replica')
            return
        blocks = range(begin // self.block, (max(begin, min(end, replica.count) - 1)) // self.block + 1)
        if min(end, replica.count) > begin and not state.rotten_blocks(replica, self.block).isdisjoint(blocks):
            raise Broken(f'{message.sender} reads a rotten block of chunk {handle}')
        part = message.body[2] if message.kind == 'Bytes' else message.body[4]
        if not is_part(entries, version, part, begin, end):
            raise Broken(f'{message.sender} reads what is no selection of chunk {handle} up to version {version}')

    def check_master(self, message, before):
        """Names change for a call that is open. A chunk is added for a call of which this is an ask; an append gets one more where there is none that has room."""
        old, new = state.master(before), state.master(self.cell.world)
        if not state.is_up(new) or state.logged(old) is state.logged(new):
            return
        client = int(message.sender[1:])
        call = self.calls[client]
        is_open = state.is_in_call(state.client(before, client)) or not state.is_up(state.client(before, client))
        if message.kind == 'Name':
            has_changed = state.names(state.logged(old)) is not state.names(state.logged(new)) and not state.pending_snapshots(old)
            is_open = is_open and call.name and call.name[0] == message.body[1]
        else:
            handles = state.files(state.logged(old)).get(state.number(message.body[2]), [])
            has_changed = len(state.files(state.logged(new)).get(state.number(message.body[2]), [])) > len(handles)
            # an ask that comes late may still add a chunk
            is_open = (client, message.body[1]) in self.asks
            if has_changed and message.body[3][0] == 'Append' and handles:
                size = self.facts.size_of(state.number(message.body[2]))
                if all(entry.offset + len(entry.content) < size for entry in self.facts.entries_of(handles[-1])):
                    raise Broken(f'a chunk is added for an append of client {client}, and the last one is not full')
        if has_changed and not is_open:
            raise Broken(f'a step of the master for a call of client {client} that is over')

    def check_placed(self, handle, entry, now):
        """A new entry is of an attempt of its client's last call, before its deadline, and has that call's bytes; a part has no more than its attempts allow, and the parts before are settled."""
        call = self.calls[entry.client]
        size = self.facts.size_of(call.file)
        attempt = [a for a in call.attempts if a.number == entry.attempt]
        if not attempt or attempt[0].deadline <= now or attempt[0].version != entry.round:
            raise Broken(f'chunk {handle}: an entry of no attempt of the call of client {entry.client}, or after its deadline')
        indexes = [handles.index(handle) for handles in self.handles_of(call) if handle in handles]
        if call.call[0] == 'append':
            is_right = entry.kind == 'Pad' or (entry.kind, entry.content) == ('Append', list(call.call[2]))
            handles = self.handles_of(call)[0]
        else:
            begin = indexes and max(call.call[2], indexes[0] * size)
            part = indexes and list(call.call[3][begin - call.call[2]:(indexes[0] + 1) * size - call.call[2]])
            is_right = not indexes or (entry.kind, entry.offset, entry.content) == ('Write', begin - indexes[0] * size, part)
            handles = [handle]
            for index in range(call.call[2] // size, indexes[0] if indexes else 0):
                self.check_settled(entry.client, call, index)
        mine = [e for one in handles for e in self.facts.entries_of(one) if (e.client, e.call) == (entry.client, call.number) and e.kind != 'Pad']
        if not is_right:
            raise Broken(f'chunk {handle}: an entry that is not what client {entry.client} asked for')
        if len(mine) > self.cell.settings['attempts']:
            raise Broken(f'chunk {handle}: more entries of a call of client {entry.client} than it has attempts')

    # ------------------------------------------------------------ answers

    def check_answer(self, client, call, answer, delivered):
        kind = answer[0]
        size = self.facts.size_of(call.file)
        if call.call[0] in ('write', 'append'):
            self.check_dead(client, call)
        if call.call[0] in NAME_CALLS and call.name and not call.is_named:
            if state.now_of(state.client(self.cell.world, client)) < call.name[1] + self.skew:
                raise Broken(f'client {client} answers a name call while its attempt lives')
        if kind == 'Fd':
            file = state.descriptors(state.client(self.cell.world, client)).get(state.number(answer[1]))
            self.told = {of: when for of, when in self.told.items() if of[:2] != (client, file)}
        elif kind == 'At':
            self.check_settled(client, call, answer[1] // size, answer[1] % size)
        elif kind == 'Done' and call.call[0] == 'write' and call.call[3]:
            for index in range(call.call[2] // size, (call.call[2] + len(call.call[3]) - 1) // size + 1):
                self.check_settled(client, call, index)
        elif kind == 'Bytes':
            self.check_bytes(call, answer)
        elif kind == 'Length':
            self.check_length(client, call, answer[1], delivered)

    def check_dead(self, client, call):
        """A write or append is answered when none of its attempts is live."""
        now = state.now_of(state.client(self.cell.world, client))
        none = (None, 'NoLease', 'NoChunk')
        for place, attempt in enumerate(call.attempts):
            is_followed = any(a.answer not in none and a.version >= attempt.version for a in call.attempts[place + 1:])
            if attempt.answer in none and now < attempt.deadline + self.skew and not is_followed:
                raise Broken(f'client {client} answers a call while its attempt {attempt.number} lives')

    def handles_of(self, call):
        """The file's chunks now, and as the call was made."""
        now = state.files_seen(self.cell.world).get(call.file)
        return call.handles if now is None else now, call.handles

    def check_settled(self, client, call, index, place=None):
        """A success has its settled entry."""
        for handles in self.handles_of(call):
            for entry in self.facts.entries_of(handles[index]) if index < len(handles) else ():
                if entry.is_settled and (entry.client, entry.call) == (client, call.number) and (place is None or (entry.kind, entry.offset) == ('Append', place)):
                    return
        if state.files_seen(self.cell.world).get(call.file) is not None:
            raise Broken(f'client {client}: a {call.call[0]} is answered without its settled entry')

    def check_bytes(self, call, answer):
        """Each part of a read is of a selection, up to the round that it names or a later one, that leaves out nothing up to that round that was settled as the call was made."""
        size = self.facts.size_of(call.file)
        begin, count = call.call[2:4]
        place = begin
        for round_ in answer[2]:
            index = place // size
            end = min(begin + count, (index + 1) * size)
            part = list(answer[1][place - begin:end - begin])
            lists = [handles[index] for handles in self.handles_of(call) if index < len(handles)]
            if lists and not any(self.is_read(call, handle, round_, part, place - index * size, end - index * size) for handle in lists):
                raise Broken('a read is part of no selection')
            place = end

    def is_read(self, call, handle, round_, part, begin, end):
        settled = {(e.round, e.serial) for e in self.facts.entries_of(handle, call.world) if e.is_settled}
        entries = self.facts.entries_of(handle)
        rounds = sorted({round_} | {e.round for e in entries if e.round > round_})
        return any(is_part(entries, last, part, begin, end, settled) for last in rounds)

    def check_length(self, client, call, length, delivered):
        """A length is that of the last chunk's replica, after the chunks before."""
        size = self.facts.size_of(call.file)
        now, then = self.handles_of(call)
        if delivered.kind == 'Told':
            if length != 0 or then:
                raise Broken('the length of a file with chunks is answered as 0')
            return
        handle = self.lengths[client, delivered.body[1]]
        indexes = [handles.index(handle) for handles in (now, then) if handle in handles]
        if indexes and (length != indexes[0] * size + delivered.body[2] or indexes[0] + 1 < len(then)):
            raise Broken(f'client {client} answers a length that leaves out chunks')

"""What a random live script printed, judged by the script alone."""
import collections

NAMES = {'mkdir': {1, 2, 3, 8, 10, 13, 17}, 'create': {1, 2, 3, 8, 10, 13, 17, 22}, 'open': {1, 4, 5, 10, 17}, 'list': {1, 4, 6, 10, 17},
         'snapshot': {1, 2, 3, 4, 8, 9, 10, 11, 13, 17}}
REFUSALS = {**NAMES, 'length': {12, 14, 15, 17}, 'read': {11, 12, 14, 15, 17}, 'write': {11, 12, 14, 15, 16}, 'append': {11, 12, 14, 15, 16}}
ANSWERS = {'mkdir': 'done', 'create': 'done', 'open': 'fd', 'list': 'names', 'snapshot': 'done', 'length': 'length', 'read': 'bytes', 'write': 'done', 'append': 'at'}
TOO_LONG, BAD_FD = 11, 12
# the cell's own, after which it refuses a client so until it is parked: clocks that are not kept are no fault, since the machine may have been busy
CLOCK_BROKEN, JOURNAL_FULL = 19, 20

Record = collections.namedtuple('Record', 'at data round client')
# a read within a chunk, by a client that opened the file in that round
Look = collections.namedtuple('Look', 'at count bytes opened client')


class Client:
    """What is known of a client as its lines are gone through: the file of each descriptor with the round in which it was opened."""

    def __init__(self):
        self.files, self.refused, self.may_have_lost = {}, {}, False

    def file(self, descriptor):
        return self.files.get(descriptor, (None, 0))

    def opens(self, descriptor, path, round_):
        # No number is used twice: the client goes on under another one, and has no descriptors of before.
        if descriptor in self.files:
            self.files = {}
        self.files[descriptor] = (path, round_)


class Judge:
    COUNTS = ['clients', 'servers', 'calls answered', 'refused', 'refused by the cell', 'reopens', 'snapshots opened', 'records answered', 'read back',
              'looks at them', 'that no read shows', 'written bytes read back']

    @staticmethod
    def no_counts():
        return collections.Counter(dict.fromkeys(Judge.COUNTS, 0))

    def __init__(self, source):
        self.source, self.faults, self.counts = source, [], self.no_counts()
        self.records, self.looks, self.written = (collections.defaultdict(list) for _ in range(3))
        self.counts.update({'clients': source.clients, 'servers': source.servers, 'reopens': source.stretch})

    def fault(self, text):
        self.faults.append(text)

    def look(self, lines):
        """Goes through all that was printed."""
        expected = sorted((call for call in self.source.calls for _ in range(call.times)), key=lambda it: it.client)
        if len(lines) != len(expected):
            self.fault(f'{len(lines)} lines are printed, and not {len(expected)}')
            return
        clients = collections.defaultdict(Client)
        for call, line in zip(expected, lines):
            self.line(clients[call.client], call, line)
        for path in self.source.shapes:
            if path in self.source.owners:
                self.look_at_written(path)
            else:
                self.look_at_records(path)

    def line(self, client, call, line):
        words = line.split(' ')
        kind = call.words[0]
        before = client.refused.get(call.stretch)
        if words[0] != f'c{call.client}' or words[1] not in (ANSWERS[kind], 'refused'):
            self.fault(f'{call.line()} prints {line}')
        elif words[1] == 'refused':
            self.refusal(client, call, int(words[2]), before, line)
        elif before is not None:
            self.fault(f'{call.line()} prints {line}, though the cell had refused a call of this client')
        else:
            self.counts['calls answered'] += 1
            getattr(self, 'answered_' + kind, self.answered)(client, call, words[2:])

    def refusal(self, client, call, number, before, line):
        self.counts['refused'] += 1
        kind, path = call.words[0], client.file(call.words[1])[0]
        if number in (CLOCK_BROKEN, JOURNAL_FULL) and before in (None, number):
            self.counts['refused by the cell'] += 1
            client.refused[call.stretch] = number
            client.may_have_lost = True
            if number == JOURNAL_FULL and not self.source.has_small_journal:
                self.fault(f'{call.line()} prints {line}')
        elif before is not None or number not in REFUSALS[kind]:
            self.fault(f'{call.line()} prints {line}')
        elif number == BAD_FD and path and not client.may_have_lost:
            self.fault(f'{call.line()} prints {line}, though that file is open')
        elif number == TOO_LONG and path and kind == 'append' and not self.is_too_long(path, call.words[2]):
            self.fault(f'{call.line()} prints {line}')
        if kind == 'write' and path:
            self.written[path].append((call.words[2], call.words[3], False))

    def is_too_long(self, path, data):
        return len(data) > self.source.shapes[path] // 4

    def answered(self, client, call, words):
        """Nothing follows from it alone."""

    def answered_open(self, client, call, words):
        client.opens(int(words[0]), call.words[1], call.round)

    def answered_append(self, client, call, words):
        path, data = client.file(call.words[1])[0], call.words[2]
        chunk = self.source.shapes.get(path, 1)
        at = int(words[0])
        if path is None or self.is_too_long(path, data) or at % chunk + len(data) > chunk:
            self.fault(f'{call.line()} is answered at {at}')
            return
        if path in self.source.owners:
            self.written[path].append((at, data, True))
            return
        self.counts['records answered'] += 1
        self.records[path].append(Record(at, data.encode(), call.round, call.client))

    def answered_write(self, client, call, words):
        path = client.file(call.words[1])[0]
        if path is None:
            self.fault(f'{call.line()} is answered')
        else:
            self.written[path].append((call.words[2], call.words[3], True))

    def answered_read(self, client, call, words):
        path, opened = client.file(call.words[1])
        at, count = call.words[2], call.words[3]
        data = b'' if words[1] == '-' else bytes.fromhex(words[1])
        if path is None or len(data) != int(words[0]) or len(data) > count:
            self.fault(f'{call.line()} is answered {words[0]} {words[1]}')
        elif at % self.source.shapes[path] + count <= self.source.shapes[path]:
            self.looks[path, at // self.source.shapes[path]].append(Look(at, count, data, opened, call.client))

    def is_whole(self, path, record):
        """Whether no write went over it: one goes to another file than was meant where an `open` before it was refused."""
        end = record.at + len(record.data)
        return all(end <= offset or offset + len(data) <= record.at for offset, data, _ in self.written[path])

    def all_of(self, path, before=None):
        """The records that stand in a file: its own, or those that were answered before a round; a snapshot's source's as well, which were answered before it."""
        own = [it for it in self.records[path] if (before is None or it.round < before) and self.is_whole(path, it)]
        if path in self.source.sources:
            source, made = self.source.sources[path]
            own += [it._replace(round=-1) for it in self.all_of(source, made) if self.is_whole(path, it)]
        return own

    def look_at_records(self, path):
        records = sorted(self.all_of(path), key=lambda it: it.at)
        if path in self.source.sources:
            if not self.records[path] and not any(it == path for it, _ in self.looks):
                return
            self.counts['snapshots opened'] += 1
        for one, other in zip(records, records[1:]):
            if one.at + len(one.data) > other.at and one.data and other.data:
                self.fault(f'{path}: the record of c{one.client} at {one.at}, {one.data}, and that of c{other.client} at {other.at}, {other.data}, share bytes')
        for record in records:
            self.look_at_record(path, record)

    def look_at_record(self, path, record):
        end = record.at + len(record.data)
        looks = [it for it in self.looks.get((path, record.at // self.source.shapes[path]), []) if record.round < it.opened and it.at <= record.at and end <= it.at + it.count]
        self.counts['looks at them'] += len(looks)
        self.counts['read back' if looks else 'that no read shows'] += 1
        for it in looks:
            read = it.bytes[record.at - it.at:end - it.at]
            if read != record.data:
                self.fault(f'{path}: where c{record.client} was answered {record.data} at {record.at}, c{it.client} reads {read}')

    def look_at_written(self, path):
        """What the one client that writes into a file was answered last of each byte. Of what was refused nothing is known."""
        bytes_ = {}
        for offset, data, is_done in self.written[path]:
            bytes_.update({offset + place: byte if is_done else None for place, byte in enumerate(data.encode())})
        for it in (it for (of, _), looks in self.looks.items() if of == path for it in looks if it.opened >= self.source.last_round):
            for place in range(it.at, it.at + it.count):
                byte = bytes_.get(place)
                if byte is None:
                    continue
                self.counts['written bytes read back'] += 1
                if it.bytes[place - it.at:place - it.at + 1] != bytes([byte]):
                    self.fault(f'{path}: c{it.client} reads {it.bytes[place - it.at:place - it.at + 8]} at {place}, where {chr(byte)} was written')
                    break

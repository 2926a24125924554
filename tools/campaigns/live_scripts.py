"""Random scripts for `gfscell live`, and those that fill a log or the servers' stores."""
import random

CHUNKS = [(64, 16), (64, 64), (128, 16), (192, 64), (256, 32), (1024, 256), (4096, 4096), (65_536, 65_536)]
COUNTS = [1, 1, 2, 2, 3, 3, 4, 4, 5, 8, 12, 16, 24, 32, 48, 64]
# the greatest number of records and of bytes that all clients are to append, so that a script ends soon
MOST_RECORDS, MOST_BYTES = 600, 200_000
MOST_READS = 200
# the settings of the scripts that fill something: attempts end soon, and neither a lease nor a location does
SMALL = {'chunk': 64, 'block': 16, 'attempts': 3, 'attempt_ms': 400, 'skew_ms': 800, 'lease_ms': 600_000, 'cache_ms': 600_000}


def options_of(servers, clients, settings):
    given = {'servers': servers, 'clients': clients, **settings}
    return [f'--{name.replace("_", "-")}={value}' for name, value in given.items()]


class Call:
    """A call of a client, which it makes some times in a row, with the round in which it is made: a line `barrier` or `reopen` ends a round, a `reopen` a stretch too."""

    def __init__(self, client, words, times, round_, stretch):
        self.client, self.words, self.times, self.round, self.stretch = client, words, times, round_, stretch

    def line(self):
        return f'{self.times} ' * (self.times != 1) + f'c{self.client} {" ".join(map(str, self.words))}'


class Source:
    """The settings and calls of one script. `shapes` has the chunk size of each path, `sources` that of which each snapshot is made and in which round, and `owners`
    who alone writes into a file."""

    def __init__(self, seed):
        self.chance = random.Random(seed)
        self.lines, self.calls = [], []
        self.round = self.stretch = 0
        self.shapes, self.sources, self.owners, self.planned = {}, {}, {}, {}
        self.choose_settings()
        self.opened = [[] for _ in range(self.clients + 1)]
        self.make_files()
        self.work()
        self.read_all()

    def choose_settings(self):
        pick = self.chance.choice
        self.servers = pick(COUNTS + [self.chance.randint(1, 64)])
        self.clients = pick(COUNTS + [self.chance.randint(1, 64)])
        chunk, block = pick(CHUNKS)
        self.settings = {
            'chunk': chunk, 'block': block, 'goal': pick([1, 2, 3, 3, 3, 5]), 'slots': 512,
            'attempts': pick([2, 3, 5]), 'attempt_ms': pick([1000, 2000, 5000]), 'skew_ms': pick([1000, 2000]), 'lease_ms': pick([60_000, 60_000, 4000]),
            'cache_entries': pick([1, 8, 256, 256]), 'cache_ms': pick([20, 1000, 60_000]), 'push_entries': pick([1, 4, 64, 64]),
        }
        if self.chance.random() < 0.2:
            # Each call that needs a chunk more takes all its attempts then.
            self.settings.update({'slots': pick([2, 4, 16]), 'attempts': 2, 'attempt_ms': 300, 'skew_ms': 1000})
        # A client that the cell refused goes on under a new number, of which there are 64, and without descriptors: so others read in the end.
        self.has_small_journal = self.clients <= 6 and self.chance.random() < 0.35
        if self.has_small_journal:
            self.settings['journal'] = pick([400, 1000, 3000]) + 40 * self.servers
        self.callers, self.clients = self.clients, self.clients + 2 * self.has_small_journal

    def call(self, client, *words, times=1):
        self.calls.append(Call(client, words, times, self.round, self.stretch))
        self.lines.append(self.calls[-1].line())

    def end_round(self, reopens=False):
        self.lines.append('reopen' if reopens else 'barrier')
        self.round += 1
        self.stretch += reopens

    def client(self):
        return self.chance.randint(1, self.callers)

    def make_files(self):
        for number in range(1, self.chance.choice([1, 1, 2, 3, 4]) + 1):
            self.make(self.client(), f'/f{number}')
        for owner in sorted({self.client() for _ in range(self.chance.choice([0, 1, 3]))}):
            self.owners[f'/w{owner}'] = owner
            self.make(owner, f'/w{owner}')
        self.end_round()

    def make(self, client, path):
        chunk, block = self.settings['chunk'], self.settings['block']
        self.shapes[path], self.planned[path] = chunk, 0
        if self.chance.random() < 0.6:
            self.call(client, 'create', path)
            return
        sizes = [size for size in range(block, chunk + 1, block) if size >= 64]
        self.shapes[path] = self.chance.choice(sizes)
        self.call(client, 'create', path, self.shapes[path], self.chance.choice([1, 2, 3, 8]))

    def open(self, client, path):
        self.call(client, 'open', path)
        self.opened[client].append(path)

    def appended(self):
        """The files into which records go."""
        return [path for path in self.shapes if path not in self.owners]

    def work(self):
        for client in range(1, self.callers + 1):
            for path in self.chance.sample(self.appended(), self.chance.randint(1, len(self.appended()))):
                self.open(client, path)
            if self.owners.get(f'/w{client}'):
                self.open(client, f'/w{client}')
        self.end_round()
        for _ in range(self.chance.choice([1, 2, 3, 3, 4])):
            before = self.appended()
            for client in range(1, self.callers + 1):
                for _ in range(self.chance.choice([1, 2, 3, 5])):
                    self.step(client)
            if self.chance.random() < 0.3:
                self.take_snapshot(self.chance.choice(before))
            self.end_round(reopens=self.chance.random() < (0.7 if self.has_small_journal else 0.3))
            self.open_anew([path for path in self.appended() if path not in before])

    def take_snapshot(self, path):
        """A snapshot beside what the others do, or behind it."""
        if self.chance.random() < 0.6:
            self.end_round()
        made = f'/s{len(self.sources) + 1}'
        self.sources[made] = (path, self.round)
        self.shapes[made], self.planned[made] = self.shapes[path], self.planned[path]
        self.call(self.client(), 'snapshot', path, made)

    def open_anew(self, made):
        """Some clients open what was made, or a file once more, for which a client that lost its descriptors has use."""
        for client in range(1, self.callers + 1):
            for path in made:
                if self.chance.random() < 0.4:
                    self.open(client, path)
            if self.has_small_journal or self.chance.random() < 0.1:
                self.open(client, self.chance.choice(self.opened[client]))
        self.end_round()

    def step(self, client):
        descriptor = self.chance.randint(1, len(self.opened[client]))
        path = self.opened[client][descriptor - 1]
        chance = self.chance.random()
        if path in self.owners:
            self.write(client, descriptor, path)
        elif chance < 0.75:
            self.append(client, descriptor, path)
        elif chance < 0.9:
            self.call(client, 'read', descriptor, self.chance.randint(0, 2 * self.shapes[path]), self.chance.randint(0, self.shapes[path]))
        elif chance < 0.97:
            self.call(client, 'length', descriptor)
        else:
            self.call(client, 'list', '/')

    def append(self, client, descriptor, path):
        chunk = self.shapes[path]
        length = self.chance.choice([chunk // 4, chunk // 4, 1, self.chance.randint(1, chunk // 4), min(chunk // 4, 24)])
        if self.chance.random() < 0.03:
            length = chunk // 4 + 1
        times = self.chance.choice([1, 1, 1, 2, 4])
        all_records = sum(call.times for call in self.calls if call.words[0] == 'append')
        if all_records + times > MOST_RECORDS or sum(self.planned.values()) + times * length > MOST_BYTES or length > 8000:
            length, times = 1, 1
        self.planned[path] += times * length
        self.call(client, 'append', descriptor, self.data(client, length), times=times)

    def write(self, client, descriptor, path):
        """Into the file's bytes, or behind them, of two chunks at most."""
        length = self.chance.randint(1, min(2 * self.shapes[path], 4000))
        offset = self.chance.randint(0, self.planned[path])
        self.planned[path] = max(self.planned[path], offset + length)
        self.call(client, 'write', descriptor, offset, self.data(client, length))

    def data(self, client, length):
        """Bytes that no other call has, if there is room for that."""
        name = f'{client}.{len(self.calls)},'
        return (name * (length // len(name) + 1))[:length]

    def read_all(self):
        """Clients open all files once more, and then read them."""
        if self.has_small_journal:
            self.end_round(reopens=True)
        readers = range(self.callers + 1, self.clients + 1) if self.has_small_journal else sorted({self.client() for _ in range(3)})
        descriptors = {}
        for client in readers:
            # A snapshot may not be there; then later descriptors are others than these.
            for path in sorted(self.shapes, key=lambda it: it in self.sources):
                self.open(client, path)
                descriptors[client, path] = len(self.opened[client])
        self.last_round = self.round
        for (client, path), descriptor in descriptors.items():
            if self.has_small_journal:
                self.end_round(reopens=True)
            elif (client, path) == next(iter(descriptors)):
                self.end_round()
            self.call(client, 'length', descriptor)
            chunk = self.shapes[path]
            for index in range(min(MOST_READS, self.planned[path] * 3 // (2 * chunk) + 4)):
                self.call(client, 'read', descriptor, index * chunk, chunk)

    def text(self):
        return '\n'.join(self.lines) + '\n'


def script_of(*calls):
    """The calls of one client, each in a round of its own where that matters, as the text of a script."""
    return ''.join(f'{call}\n' if call == 'reopen' else f'c1 {call}\n' for call in calls)


def full_log():
    """Names fill the log. What was made stays, and can be looked at and read; a file's lease lets records come until it is given up. No name changes any more,
    and no chunk gets a version. After a `reopen` the same, if there is room for its record, or nothing but what the client knows."""
    fill = [f'create /f{number:02}' for number in range(1, 67)]
    changes = ['mkdir /d', 'delete /f01', 'rename /f01 /g', 'snapshot /f00 /g']
    looks = ['open /f01', 'read 1 0 26', 'length 1', 'list /d']
    return script_of('create /f00', 'open /f00', 'append 1 a*13', *fill, 'append 1 b*13', *changes, *looks, 'append 2 c*13', 'append 1 d*13', 'length 2',
                     'reopen', 'read 1 0 26', 'append 1 e*13', 'mkdir /d', 'open /f66', 'reopen', 'read 1 0 26')


def full_log_of_names():
    """The same without records: what is refused changes nothing, and behind a `reopen` it is so too."""
    fill = [f'create /f{number:02}' for number in range(69)]
    again = ['create /g', 'mkdir /d', 'open /f68', 'list /']
    return script_of(*fill, *again, 'rmdir /f00', 'create /f00', 'reopen', *again, 'append 1 a')


def full_log_of_copies():
    """A snapshot's record has room, and what the log would be cut down to has none: then the master can't be opened over it any more, and each name call and Look
    ends Unknown."""
    names = [f'/d/{"n" * 30}{number:02}' for number in range(18)]
    return script_of('mkdir /d', *(f'create {name}' for name in names), 'snapshot /d /e', *(f'mkdir /x{number:02}' for number in range(25)), 'list /',
                     'reopen', 'list /', f'open {names[0]}', 'mkdir /y', 'reopen', 'list /')


def full_store():
    """Each server has two slots. The third file with bytes gets no replica, and keeps its chunk without one; the others go on. Behind the `reopen` a server that
    reports late is left out of a grant, and its slot is free once its replica is collected: so nothing is asked of the third file there."""
    return script_of('create /a', 'create /b', 'create /c', 'create /e', 'open /a', 'open /b', 'open /c', 'open /e', 'append 1 a*16', 'append 2 b*16',
                     'append 3 c*16', 'length 3', 'read 3 0 16', 'append 3 c*16', 'write 4 0 e', 'length 4', 'append 1 d*16', 'write 2 0 f*20', 'read 1 0 64', 'read 2 0 64',
                     'append 1 g*16', 'append 1 h*16', 'append 1 i*16', 'length 1', 'read 1 0 64', 'reopen',
                     'read 1 0 64', 'read 2 0 64', 'append 2 k*16', 'read 2 0 64')


FULL = [
    ('full_log', 3, {**SMALL, 'log_bytes': 4096}, full_log()),
    ('full_log_of_names', 1, {**SMALL, 'log_bytes': 4096}, full_log_of_names()),
    ('full_log_of_copies', 3, {**SMALL, 'log_bytes': 4096}, full_log_of_copies()),
    ('full_store', 3, {**SMALL, 'goal': 3, 'slots': 2}, full_store()),
    ('full_store_of_one_server', 1, {**SMALL, 'goal': 1, 'slots': 2}, full_store()),
]

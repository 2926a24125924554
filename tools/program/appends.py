"""Tests: producers that append records to one file at the same time, and readers that look for each where it was answered to stand, by `serve` and `live`."""
import random
import re
import threading
import time

from dialogue import Dialogue
from running import differs, words_of

# Three servers with small chunks, where no attempt is over soon.
CELL = {'servers': 3, 'goal': 3, 'slots': 64, 'chunk': 64, 'block': 16, 'attempt_ms': 60_000}
# The same where attempts are soon over, and clocks taken to be close.
QUICK = {**CELL, 'attempt_ms': 300, 'skew_ms': 500}
# The same with a small log: a master that begins again reads half of it in one step.
HASTY = {**QUICK, 'log_bytes': 262_144}
LOG = '/log'
NODES = ('master', 's1', 's2', 's3')
# A server that can't be found or asked, and a call without an answer: 15 NoReplica, 16 Failed, 17 Unknown.
UNSERVED = ('refused 15 NoReplica', 'refused 16 Failed', 'refused 17 Unknown')
UNPLACED, UNREAD = UNSERVED[:2], UNSERVED[::2]
# How often a record is looked for where no server could tell it, and for how many seconds it is waited in between.
MOST_LOOKS, PAUSE = 50, 0.1
# How many steps a cell that keeps its last entries may take.
MOST_STEPS = 2 ** 62
# In how many cells a message is waited for that comes too late, and in how many a record that is answered though messages are lost: how threads take turns is
# not the test's to say.
MOST_CELLS = 20
FEW_CELLS = 5


def names_of(clients):
    return [f'c{client}' for client in clients]


def record_of(producer, number):
    """Eight bytes, which no other producer and no other number has."""
    return f'{producer}{number:06}'


def first_of(what, faults):
    """One fault in place of many."""
    return [f'{what}: {faults[0]}, and {len(faults) - 1} more'] if faults else []


def placed(made, before=()):
    """Where records were answered to stand, of each with its answer, no two at one place; one that nobody could place is left out. And the faults."""
    stored, strange = {}, []
    for record, answer in made:
        found = re.fullmatch(r'at (\d+)', answer)
        if found and int(found[1]) not in stored and int(found[1]) not in before:
            stored[int(found[1])] = record
        elif answer not in UNPLACED:
            strange.append(f'{record} {answer}')
    return stored, first_of('answers to appends', strange)


# ---- a cell that is served

class Log:
    """The file of a served cell: what was answered of its records, and the faults."""

    def __init__(self, cell, producers):
        self.cell, self.producers, self.next, self.stored, self.faults = cell, names_of(range(1, producers + 1)), 0, {}, []

    def create(self, client):
        self.faults += differs('create', self.cell.ask([(client, f'create {LOG}')]), ['done'])
        self.stored = {}

    def opened(self, clients):
        """The clients that open it, each with its descriptor: others are left out, since nobody could serve."""
        answers = self.cell.ask([(client, f'open {LOG}') for client in clients])
        self.faults += [f'open: {answer}' for answer in answers if not re.fullmatch(r'fd \d+', answer) and answer not in UNSERVED]
        return {client: answer.split(' ')[1] for client, answer in zip(clients, answers) if answer.startswith('fd ')}

    def produce(self, count, descriptors=None):
        """All producers that have it open, or can open it now, append so many records each at the same time."""
        descriptors = descriptors or self.opened(self.producers)
        numbers = range(self.next, self.next + count)
        self.next += count
        asked = [(client, record_of(client, number)) for number in numbers for client in descriptors]
        answers = self.cell.ask([(client, f'append {descriptors[client]} {record}') for client, record in asked])
        stored, faults = placed(((record, answer) for (_, record), answer in zip(asked, answers)), self.stored)
        self.stored.update(stored)
        self.faults += faults

    def look(self, reader):
        """Reads each record back. A master that began again knows of no replica until servers report, so that a read may be refused at first."""
        left = sorted(self.stored.items())
        descriptor = self.opened([reader]).get(reader)
        if not descriptor:
            self.faults.append(f'{reader} opens nothing')
            return
        for _ in range(MOST_LOOKS):
            answers = self.cell.ask([(reader, f'read {descriptor} {offset} 8') for offset, _ in left])
            self.faults += first_of(f'{reader} reads', [
                f'{record} at {offset}: {answer}' for (offset, record), answer in zip(left, answers)
                if answer not in UNREAD and not answer.startswith(f'bytes 8 {record.encode().hex()} rounds ')])
            left = [pair for pair, answer in zip(left, answers) if answer in UNREAD]
            if not left:
                return
            time.sleep(PAUSE)
        self.faults += first_of(f'{reader} reads nothing of', left)


def served(program, run, producers, readers, words=(), **settings):
    """The faults of what is done with a served cell."""
    clients = producers + readers
    with Dialogue(program.begin(['serve', *words_of({'clients': clients, **settings}), *words]), clients) as cell:
        log = Log(cell, producers)
        faults = list(run(cell, log, *names_of(range(producers + 1, clients + 1))))
        return [*log.faults, *faults, *differs('its end', cell.end(), ([], b'', 0))]


def four_producers(program):
    def run(_, log, reader):
        log.create(reader)
        log.produce(100)
        log.look(reader)
        return differs('records answered', len(log.stored), 400)
    return served(program, run, 4, 1, **CELL)


def losses_and_repeats_in(program, attempts, records, answered):
    """Two producers, while the network loses each seventh message and repeats each fifth. How many records are answered is added to the list."""
    def run(cell, log, reader):
        log.create(reader)
        opened = log.opened(log.producers)
        cell.tell('net 7 5 0')
        cell.room()
        log.produce(records, opened)
        cell.tell('net 0 0 0')
        cell.room()
        log.look(reader)
        answered.append(len(log.stored))
        return differs('who appends', list(opened), log.producers)
    return served(program, run, 2, 1, attempts=attempts, **QUICK)


def losses_and_repeats(program):
    return losses_and_repeats_in(program, 2, 20, [])


def losses_and_repeats_in_five_attempts(program):
    """With as many attempts as a call has by default, by which some third of the records is placed. Where the machine does much else there may be none: then
    another cell is tried."""
    answered = []
    for _ in range(FEW_CELLS):
        faults = losses_and_repeats_in(program, 5, 10, answered)
        if faults or answered[-1]:
            return faults
    return ['no record is answered']


def restart_at_random(cell, randoms, done, restarted):
    """Nodes begin again, one at once, until the producers are done."""
    while True:
        restarted.append(randoms.choice(NODES))
        cell.tell(f'restart {restarted[-1]}')
        if done.wait(randoms.randrange(256) / 100):
            return


def produce_meanwhile(cell, log, randoms, restarted):
    done = threading.Event()
    restarting = threading.Thread(target=restart_at_random, args=(cell, randoms, done, restarted))
    restarting.start()
    try:
        log.produce(20)
    finally:
        done.set()
        restarting.join()


def files_are_filled_in_turn_while_nodes_begin_again(program):
    """A cell that runs on, whose last 2,000 entries stay, and whose files have more chunks than it has slots: each file is read by two clients, and deleted.
    `tools/campaigns/soak` does the same for an hour."""
    def run(cell, log, one, other):
        answered, restarted, randoms = 0, [], random.Random(62)
        cell.tell('net 401 97 0')
        log.create(one)
        for _ in range(4):
            produce_meanwhile(cell, log, randoms, restarted)
            answered += len(log.stored)
            log.look(one)
            log.look(other)
            yield from differs('delete', cell.ask([(one, f'delete {LOG}')]), ['done'])
            log.create(one)
        steps = MOST_STEPS - cell.room()
        if answered <= 160 or steps <= 2_000 or not restarted:
            yield f'{answered} of 320 records answered, {steps} steps, {len(restarted)} restarts'
    return served(program, run, 4, 2, ['--keep', '2000'], **{**HASTY, 'slots': 40, 'keep_ms': 100, 'lease_ms': 600})


# ---- scripts

def play_log(program, records, looks, behind=(), words=(), **settings):
    """A script in which four producers append so many records each, and a fifth client then reads all their file so often and makes calls behind. Where records were
    answered to stand, what was told meanwhile, and the faults."""
    producers, reader = names_of(range(1, 5)), 'c5'
    opened, asked = [*producers, reader], [(client, record_of(client, number)) for number in range(records) for client in producers]
    script = [f'{reader} create {LOG}', 'barrier', *(f'{client} open {LOG}' for client in opened), 'barrier',
              *(f'{client} append 1 {record}' for client, record in asked), 'barrier', f'{looks} {reader} read 1 0 {settings["chunk"]}', 'barrier',
              *(f'{reader} {call}' for call in behind)]
    ran = program.run(['live', '-', *words_of({'clients': 5, **settings}), '--progress', *words], '\n'.join(script).encode())
    answers = {client: [line.split(' ', 1)[1] for line in ran.printed.decode().splitlines() if line.startswith(f'{client} ')] for client in opened}
    told = ran.told.decode().splitlines()
    faults = differs('status, and the reader', (ran.status, answers[reader][:2]), (0, ['done', 'fd 1']))
    made = {client: iter(answers[client]) for client in producers}
    # Without a descriptor a client has no record to append.
    going = [client for client in producers if next(made[client], '') not in UNSERVED]
    stored, strange = placed((record, next(made[client], 'nothing')) for client, record in asked if client in going)
    return stored, [*faults, *strange, *unread(answers[reader][2:2 + looks], stored)], told, answers[reader][2 + looks:]


def unread(looks, stored):
    """The faults of what was read of the file's first bytes: each look that a server gave has all records, and there is one."""
    read = [bytes.fromhex(look.split(' ')[2]) for look in looks if look.startswith('bytes ')]
    yield from first_of('looks', [look for look in looks if not look.startswith('bytes ') and look not in UNREAD])
    for data in read:
        yield from first_of('not read', [f'{record} at {offset}' for offset, record in stored.items() if data[offset:offset + 8] != record.encode()])
    if not read:
        yield 'nothing is read'


def lost_in(told):
    """How many messages were lost, as it was told last."""
    return ([0] + [int(line.split(' ')[1]) for line in told if line.endswith(' messages lost')])[-1]


def clients_outlast_lost_messages(program):
    """Three entries of the journal stay, so that messages come too late, and the clients go on all the same."""
    lost = 0
    for _ in range(MOST_CELLS):
        _, faults, told, _ = play_log(program, 10, 5, words=['--keep', '3'], servers=1, goal=1, slots=64, chunk=65536, block=16, attempt_ms=100, attempts=10)
        if faults:
            return faults
        lost = lost_in(told)
        if lost:
            return []
    return ['no message is lost']


def a_cell_keeps_the_last_entries(program):
    """100,000 of them, and runs past its journal: of 12,000 records each is read, and no message is lost. At the end a call waits that no server has a slot for, so
    that all that was before it is told."""
    stored, faults, told, last = play_log(
        program, 3_000, 1, ('create /full', 'open /full', 'append 2 x'), ['--keep', '100000'],
        servers=3, slots=1, chunk=1_048_576, block=1_024, journal=64, attempts=3, attempt_ms=2_000, skew_ms=1_000)
    yield from faults
    yield from differs('records answered', len(stored), 12_000)
    yield from differs('the last calls', last, ['done', 'fd 2', 'refused 16 Failed'])
    found = re.fullmatch(r'gfscell: (\d+) calls answered, (\d+) events, room for (\d+)', told[-1] if told else '')
    if not found:
        yield f'told: {told[-1:]}'
        return
    answered, steps, room = map(int, found.groups())
    yield from differs('calls answered, and lost messages', (answered, lost_in(told)), (1 + 5 + 12_000 + 1 + 2, 0))
    yield from differs('steps and room', steps + room, MOST_STEPS)
    if steps <= 100_000:
        yield f'{steps} steps'


def tests():
    """Each test's name, and what it is."""
    return [(test.__name__, test) for test in (four_producers, clients_outlast_lost_messages, a_cell_keeps_the_last_entries)]


def waiting_tests():
    """Those that for the most part wait for attempts to be over."""
    return [(test.__name__, test) for test in (losses_and_repeats, losses_and_repeats_in_five_attempts, files_are_filled_in_turn_while_nodes_begin_again)]

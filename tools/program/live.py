"""Tests: scripts on a cell whose nodes run on threads, by `live`."""
import collections
import os
import re
import tempfile
import threading

from running import Ended, differs, words_of
from worked_rows import ROOT, options_of

# Small slots, where no attempt is over soon.
CELL = {'servers': 3, 'goal': 3, 'slots': 64, 'block': 16, 'attempt_ms': 60_000}
# The script of docs/SCRIPT.md.
TWO_CLIENTS = 'c1 create /f\nbarrier\nc1 open /f\nc2 open /f\nbarrier\n2 c1 append 1 a*8\n2 c2 append 1 b*8\nbarrier\nc1 length 1\n'
# Two files, of which the second one's chunk has no slot where each server has one. A call of two attempts doesn't wait long for that.
TWO_FILES = 'c1 create /f\nc1 open /f\nc1 append 1 a*8\nc1 create /g\nc1 open /g\nc1 append 2 a*8\n'
FULL = {'slots': 1, 'attempts': 2, 'skew_ms': 500}
# For how long a bad line is waited for that has to be told at once, in seconds.
AT_ONCE = 20


def play(program, script, words=(), **settings):
    return program.run(['live', '-', *words_of({**CELL, **settings}), *words], script.encode())


def two_clients_append(program):
    ran = play(program, '# two clients append to one file\n' + TWO_CLIENTS, clients=2, chunk=64)
    lines = ran.printed.decode().splitlines()
    at = [line for line in lines if ' at ' in line]
    others = [line for line in lines if ' at ' not in line]
    return [*differs('status and fault', (ran.status, ran.told), (0, b'')),
            *differs('clients', [line.split(' ')[0] for line in lines], ['c1'] * 5 + ['c2'] * 3),
            *differs('offsets', sorted(int(line.split(' ')[2]) for line in at), [0, 8, 16, 24]),
            *differs('the rest', others, ['c1 done', 'c1 fd 1', 'c1 length 32', 'c2 fd 1'])]


def no_bad_script_is_run(program):
    bad = [('c1 create /f\n\nc3 create /g\n', 3), ('wait 3\n', 1), ('c1 mkdir /d\nbarrier \n', 2), ('2  c1 mkdir /d', 1), ('barrier\n-1 c1 mkdir /d\n', 2),
           ('2 barrier', 1)]
    for script, number in bad:
        yield from differs(script, play(program, script, clients=2, chunk=64), (1, b'', b'gfscell: line %d: bad line\n' % number))
    yield from differs('65 clients', play(program, '', clients=65, chunk=64), (1, b'', b'gfscell: cannot start\n'))


def fault_of_endless(program, first, again):
    """What a program says of a script that has no end."""
    with Ended(program.begin(['live', '-', *words_of({**CELL, 'clients': 2, 'chunk': 64})]), AT_ONCE) as process:
        def give():
            try:
                process.stdin.write(first)
                while True:
                    process.stdin.write(again)
            except OSError:
                pass  # it has ended
        giving = threading.Thread(target=give)
        giving.start()
        told = process.stderr.read()
        printed = process.stdout.read()
        process.wait()
        giving.join()
    return printed, told


def a_bad_line_of_an_endless_script_is_told(program):
    for first, again, number in ((b'barrier\nwait 3\n', b'\n' * 4096, 2), (b'', b'#' * 4096, 1)):
        yield from differs(first + again[:1], fault_of_endless(program, first, again), (b'', b'gfscell: line %d: bad line\n' % number))


def a_client_goes_on(program):
    ran = play(program, 'c1 create /f\nc1 open /f\nreopen\n2 c1 append 1 a*8\nreopen\nreopen\nc1 length 1\n', clients=1, chunk=4096, journal=100_000)
    return differs('it', ran, (0, b'c1 done\nc1 fd 1\nc1 at 0\nc1 at 8\nc1 length 16\n', b''))


def both_records_beside_a_parking_are_read(program):
    ran = play(program, 'c1 create /f\nc1 open /f\nc1 append 1 a*8\nreopen\nc1 append 1 b*8\nc1 read 1 0 16\n', clients=2, chunk=64)
    return differs('it', ran, (0, b'c1 done\nc1 fd 1\nc1 at 0\nc1 at 8\nc1 bytes 16 61616161616161616262626262626262 rounds 2\n', b''))


def a_line_reopen_empties_the_journal(program):
    """A call takes three steps: the journal has room for those of three stretches of 300 calls, and for ticks beside them, and ten are run."""
    ran = play(program, '300 c1 mkdir /d\nreopen\n' * 10, clients=1, chunk=4096, journal=3_000)
    return differs('answers', (ran.status, collections.Counter(ran.printed.splitlines()), ran.told), (0, {b'c1 done': 1, b'c1 refused 3 Exists': 2_999}, b''))


def a_thousand_parks_with_four_producers(program):
    """Between each 50 of a thousand parkings in a row each of four producers appends a record, which a fifth client reads where it was answered to stand: more
    than half of its 20, since a record that all attempts don't place is refused."""
    producers = range(1, 5)
    append = ''.join(f'c{client} append 1 {client}*8\n' for client in producers)
    opened = ''.join(f'c{client} open /log\n' for client in range(1, 6))
    script = f'c5 create /log\nbarrier\n{opened}' + (append + 'reopen\n' * 50) * 20 + 'c5 read 1 0 4096\n'
    ran = play(program, script, clients=5, chunk=4096, journal=100_000)
    lines = ran.printed.decode().splitlines()
    read = next((bytes.fromhex(line.split(' ')[3]) for line in lines if line.startswith('c5 bytes ')), b'')
    yield from differs('status and fault', (ran.status, ran.told), (0, b''))
    for client in producers:
        offsets = [int(line.split(' ')[2]) for line in lines if line.startswith(f'c{client} at ')]
        missed = [offset for offset in offsets if read[offset:offset + 8] != b'%d' % client * 8]
        yield from differs(f'records of c{client} that are not read', missed, [])
        if len(offsets) <= 10:
            yield f'c{client}: {len(offsets)} of 20 records are answered'


def a_full_journal_is_gone_past(program):
    """A call takes three steps, so a journal has no room for those of 30 calls, and none for what follows; three times ten go past it where it is parked behind each.
    Where ticks fill it all the same the next stretch makes that call."""
    names = 'abcdefghij'
    full = play(program, '30 c1 mkdir /d\n', clients=1, chunk=64, journal=64)
    yield from differs('what is past its end', full.printed.splitlines()[21:], [b'c1 refused 20 JournalFull'] * 9)
    ran = play(program, ''.join(f'c1 mkdir /{name}\nreopen\n' for name in names) * 3 + 'c1 list /\nreopen\n' * 3, clients=1, chunk=64, journal=64)
    lines = ran.printed.decode().splitlines()
    made, listed = [[line for line in part if line != 'c1 refused 20 JournalFull'] for part in (lines[:30], lines[30:])]
    yield from differs('status, fault and calls', (ran.status, ran.told, len(lines)), (0, b'', 33))
    yield from differs('answers', set(made) - {'c1 done', 'c1 refused 3 Exists'}, set())
    yield from differs('what is listed', set(listed), {'c1 names 11 .gone/ ' + ' '.join(f'{name}/' for name in names)})
    if len(made) < 22:
        yield f'{len(made)} of 30 calls are answered'


def there_are_64_clients(program):
    """Each of which is answered. That there are no 65 is told with bad scripts."""
    clients = range(1, 65)
    ran = play(program, ''.join(f'c{client} mkdir /{client:02}\n' for client in clients) + 'barrier\nc64 list /\n', servers=1, clients=64, chunk=64)
    names = ' '.join(f'{client:02}/' for client in clients)
    return differs('it', ran, (0, ''.join(f'c{client} done\n' for client in clients).encode() + f'c64 names 65 .gone/ {names}\n'.encode(), b''))


def a_chunk_without_a_slot_is_refused(program):
    """With one slot at each server the second file's chunk has no replica, and the first file takes records all the same."""
    ran = play(program, TWO_FILES, clients=1, chunk=64, **{**FULL, 'attempt_ms': 300})
    return differs('it', ran, (0, b'c1 done\nc1 fd 1\nc1 at 0\nc1 done\nc1 fd 2\nc1 refused 16 Failed\n', b''))


def it_is_told_how_far_a_cell_is(program):
    """Once a second, also while a call waits that no server has a slot for, behind five that were answered."""
    ran = play(program, TWO_FILES, ['--progress'], clients=1, chunk=64, journal=1_000, **{**FULL, 'servers': 1, 'goal': 1, 'attempt_ms': 1_500})
    told = [tuple(map(int, found)) for found in re.findall(rb'gfscell: (\d+) calls answered, (\d+) events, room for (\d+)\n', ran.told)]
    yield from differs('status and answers', (ran.status, len(ran.printed.splitlines())), (0, 6))
    yield from differs('other lines', len(ran.told.splitlines()), len(told))
    yield from differs('calls answered in the end', [answered for answered, _, _ in told[-1:]], [5])
    yield from differs('what does not fit together', [it for it in told if it[1] < it[0] or it[1] + it[2] != 1_000], [])


def example_of(program, name):
    """What the script of an example prints on a cell of its settings: what each client is answered."""
    path = os.path.join(ROOT, 'examples', name)
    with open(path, 'rb') as file:
        settings = options_of(file.read())
    ran = program.run(['live', path, *words_of(settings)])
    answers = collections.defaultdict(list)
    for line in ran.printed.decode().splitlines():
        client, _, answer = line.partition(' ')
        answers[client].append(answer)
    return differs('status and fault', (ran.status, ran.told), (0, b'')), answers


def four_producers_of_an_example(program):
    """Each record stands where it was answered. One that is tried again may leave more of the file behind than the answers tell."""
    faults, answers = example_of(program, 'four_producers.live')
    yield from faults
    reader = answers.pop('c5', [])
    yield from differs('the reader', [answer.split(' ')[0] for answer in reader], ['done', 'fd', 'length', 'bytes'])
    data = bytes.fromhex(reader[-1].split(' ')[2]) if reader and reader[-1].startswith('bytes 160 ') else b''
    yield from differs('clients', sorted(answers), ['c1', 'c2', 'c3', 'c4'])
    offsets = [(int(answer.removeprefix('at ')), letter) for client, letter in zip(sorted(answers), 'abcd') for answer in answers[client][1:]]
    yield from differs('how many offsets', (len(offsets), len({offset for offset, _ in offsets})), (20, 20))
    yield from differs('not read', [pair for pair in offsets if pair[0] <= 152 and data[pair[0]:pair[0] + 8] != pair[1].encode() * 8], [])


def one_name_of_an_example(program):
    faults, answers = example_of(program, 'one_name.live')
    made = sorted(answer for given in answers.values() for answer in given[:1])
    return [*faults, *differs('who makes it', made, ['done', 'refused 3 Exists', 'refused 3 Exists']),
            *differs('what is listed', [given[1:] for given in answers.values()], [['names 2 .gone/ d/']] * 3)]


def small_journal_of_an_example(program):
    """A few calls are answered, and from then on none."""
    faults, answers = example_of(program, 'small_journal.live')
    given = answers['c1']
    answered = [answer for answer in given if not answer.startswith('refused 20 ')]
    return [*faults, *differs('answers', given, answered + ['refused 20 JournalFull'] * (20 - len(answered))),
            *differs('those in the journal', answered, (['done'] + ['refused 3 Exists'] * 5)[:len(answered)]), *([] if answered else ['none is answered'])]


def history_of(program, script, words=(), **settings):
    """What is printed, and the calls and answers of the file that is written."""
    with tempfile.TemporaryDirectory() as folder:
        to = os.path.join(folder, 'history')
        ran = play(program, script, [*words, '--history', to], **settings)
        with open(to, 'rb') as file:
            return ran, [line.split(b' ', 1)[1] for line in file.read().splitlines()]


def a_history_that_cannot_be_written_is_told(program):
    ran = play(program, 'c1 mkdir /d\n', ['--history', '/dev/full'], clients=1, chunk=64)
    return differs('it', ran, (1, b'c1 done\n', b'gfscell: cannot write\n'))


def regions_and_calls_are_told(program):
    ran, calls = history_of(program, 'c1 create /f\nc1 open /f\n10 c1 append 1 a*8\n', ['--regions', '/f'], clients=1, chunk=64)
    offsets = range(0, 80, 8)
    yield from differs('what is printed', ran, (0, b'c1 done\nc1 fd 1\n' + b''.join(b'c1 at %d\n' % offset for offset in offsets)
                                                + b'regions 0-64 determined\nregions 0-16 determined\n', b''))
    made = [(b'create /f', b'done'), (b'open /f', b'fd 1'), *((b'append 1 0x6161616161616161', b'at %d' % offset) for offset in offsets)]
    yield from differs('calls and answers', calls, [line for call, answer in made for line in (b'c1 ' + call, b'c1 -> ' + answer)])


def calls_of_both_journals_are_told(program):
    """Of a cell that is parked between two clients' records; behind a parking a record may be padded over and tried again."""
    ran, calls = history_of(program, 'c1 create /f\nc1 open /f\n10 c1 append 1 a*8\nreopen\nc2 open /f\n10 c2 append 1 b*8\n', clients=2, chunk=64)
    def lines(client, letter, created):
        made = [*created, (b'open /f', b'fd 1'), *[(b'append 1 0x' + letter * 8, b'at N')] * 10]
        return [line for call, answer in made for line in (client + b' ' + call, client + b' -> ' + answer)]
    yield from differs('status and fault', (ran.status, ran.told), (0, b''))
    yield from differs('calls and answers', [re.sub(rb' at \d+$', b' at N', call) for call in calls],
                       lines(b'c1', b'61', [(b'create /f', b'done')]) + lines(b'c2', b'62', []))
    yield from differs('offsets', [call.split(b' -> ')[1] for call in calls if b' -> at ' in call],
                       [line.split(b' ', 1)[1] for line in ran.printed.splitlines() if b' at ' in line])


def tests():
    """Each test's name, and what it is."""
    return [(test.__name__, test) for test in (
        two_clients_append, no_bad_script_is_run, a_bad_line_of_an_endless_script_is_told, a_client_goes_on,
        both_records_beside_a_parking_are_read, a_line_reopen_empties_the_journal,
        a_thousand_parks_with_four_producers, a_full_journal_is_gone_past, there_are_64_clients, a_chunk_without_a_slot_is_refused, it_is_told_how_far_a_cell_is,
        four_producers_of_an_example, one_name_of_an_example, small_journal_of_an_example,
        a_history_that_cannot_be_written_is_told, regions_and_calls_are_told, calls_of_both_journals_are_told)]

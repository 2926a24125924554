"""Tests: a cell that is served through a pipe, by `serve`."""
import re
import socket

from running import Ended, differs, words_of

# One server, small chunks, and attempts that aren't soon over.
CELL = {'servers': 1, 'clients': 1, 'goal': 1, 'slots': 64, 'chunk': 64, 'block': 16, 'attempt_ms': 60_000}
# For how long one line of a dialogue is waited for, in seconds.
PATIENCE = 60
REGIONS = ['--regions', '/f']


def begun(words=(), **settings):
    return ['serve', *words_of({**CELL, **settings}), *words]


def answered(program, lines, wanted, words=(), **settings):
    """The fault where these lines are answered otherwise, or one is said to be bad."""
    return differs('it', program.run(begun(words, **settings), lines), (0, wanted, b''))


def a_client_has_a_dialogue(program):
    return answered(
        program,
        b'# one client\nnet 0 0 0\nc1 create /f\nc1 open /f\n\nc1 append 1 0x00fF\nc1 append 1 abc\nc1 write 1 5 0x0a\nc1 append 1 0x\nc1 read 1 0 16\nc1 close 2',
        b'c1 done\nc1 fd 1\nc1 at 0\nc1 at 2\nc1 done\nc1 at 6\nc1 bytes 6 00ff6162630a rounds 1\nc1 refused 12 BadFd\n')


def a_cell_runs_past_its_journal(program):
    """Each call takes three steps, so these take more than the 16 that the setting lets a whole journal have."""
    made = b''.join(b'c1 mkdir /%c\n' % name for name in b'abcdefg')
    return answered(program, made + b'c1 list /\n', b'c1 done\n' * 7 + b'c1 names 8 .gone/ a/ b/ c/ d/ e/ f/ g/\n', ['--keep', '1000'], journal=16)


def regions_are_told_behind_the_last_answer(program):
    return answered(
        program, b'c1 create /f\nc1 open /f\n' + b'c1 append 1 a*16\n' * 4 + b'c1 append 1 0x00ff\nc1 read 1 64 16\n',
        b'c1 done\nc1 fd 1\nc1 at 0\nc1 at 16\nc1 at 32\nc1 at 48\nc1 at 64\nc1 bytes 2 00ff rounds 1\nregions 0-64 determined\nregions 0-2 determined\n',
        REGIONS, attempt_ms=2_000)


def of_a_path_without_a_file_nothing_is_told(program):
    return answered(program, b'c1 create /f\nc1 delete /f\n', b'c1 done\nc1 done\n', REGIONS, attempt_ms=2_000)


def bad_lines_are_told_and_the_rest_goes_on(program):
    bad = [b'c2 mkdir /a', b'wait 3', b'c1 append 1 0xf', b'c1 append 1 0xfg', b'restart s2', b'restart c1', b'barrier', b'c1  mkdir /a']
    ran = program.run(begun(), b'\n'.join([*bad, b'c1 mkdir /b', b'room 1', b'net 1 2 x', b'']))
    told = b''.join(b'gfscell: line %d: bad line\n' % number for number in (*range(1, 9), 10, 11))
    return differs('it', ran, (0, b'c1 done\n', told))


def each_answer_is_flushed_before_the_next_line_comes(program):
    dialogue = [(b'c1 create /f', rb'c1 done'), (b'room', rb'room \d+'), (b'c2 open /f', rb'c2 fd 1'), (b'c2 append 1 ab', rb'c2 at 0'),
                (b'c1 open /f', rb'c1 fd 1'), (b'c1 length 1', rb'c1 length 2')]
    with Ended(program.begin(begun(clients=2)), PATIENCE) as process:
        for line, wanted in dialogue:
            process.stdin.write(line + b'\n')
            process.stdin.flush()
            found = process.stdout.readline()
            if not re.fullmatch(wanted + b'\n', found):
                return [f'{line}: {found}, and {wanted} is wanted']
        process.stdin.close()
        return differs('its end', (process.stdout.read(), process.stderr.read(), process.wait()), (b'', b'', 0))


def four_clients_are_served(program):
    """What they call asks no server, so none that begins again holds them up."""
    clients = [b'c%d' % client for client in range(1, 5)]
    lines = [b'restart s1', *(client + b' mkdir /d' for client in clients), *(client + b' list /' for client in reversed(clients)), b'']
    ran = program.run(begun(clients=4), b'\n'.join(lines))
    found = sorted(ran.printed.splitlines())
    made = [line for line in found if line.endswith(b' done')]
    wanted = sorted(client + answer for client in clients for answer in (b' names 2 .gone/ d/', b' done' if client + b' done' in made else b' refused 3 Exists'))
    return [*differs('answers', (ran.status, found, ran.told), (0, wanted, b'')), *differs('how many made it', len(made), 1)]


def what_was_asked_before_the_reader_fails_is_answered(program):
    """A reader of a stream whose other end goes while bytes for it wait is told that it was reset, once it has read all."""
    near, far = socket.socketpair()
    far.send(b'these bytes nobody reads')
    near.sendall(b'c1 mkdir /a\nc1 mkdir /a\nc1 mkdir')
    near.close()
    with Ended(program.begin(begun(), given=far), PATIENCE) as process:
        far.close()
        return differs('it', (*process.communicate(), process.returncode), (b'c1 done\nc1 refused 3 Exists\n', b'gfscell: cannot read\n', 1))


def a_writer_that_fails_ends_it(program):
    with open('/dev/full', 'wb') as full, Ended(program.begin(begun(), printed=full), PATIENCE) as process:
        process.stdin.write(b'c1 mkdir /a\n')
        return differs('it', (process.communicate()[1], process.returncode), (b'gfscell: cannot write\n', 1))


def tests():
    """Each test's name, and what it is."""
    return [(test.__name__, test) for test in (
        a_client_has_a_dialogue, a_cell_runs_past_its_journal, regions_are_told_behind_the_last_answer, of_a_path_without_a_file_nothing_is_told,
        bad_lines_are_told_and_the_rest_goes_on, each_answer_is_flushed_before_the_next_line_comes, four_clients_are_served,
        what_was_asked_before_the_reader_fails_is_answered, a_writer_that_fails_ends_it)]

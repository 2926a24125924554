"""Tests: what scripts print by `sim`. Rows, with what they have to print, are files of `rows/`; examples are those of `examples/`, with files beside them."""
import functools
import glob
import os
import re

from running import differs, ran_of, words_of
from worked_rows import ROOT, WORKED, options_of, rows_of

RULE = b'\n----\n'
# Of a row without options of its own.
SMALL_CELL = {'chunk': 64, 'block': 16, 'clients': 2}
# A node of these is hindered by other means than lines: the definitions alone run them.
HINDERED = re.compile(rb'^# (stop|full) ', re.M)

# A Create while the master's disk stops: once the master begins again the file is made, once.
STOPPED_MASTER = b'%b\nstart c1 create /f\nrestart master\nfinish\nc1 create /f\n----\nc1 done\nc1 refused 3 Exists\n'
# A record that is appended while a member's disk stops, which stops again as that server begins again: the append fails, and once the server has begun again,
# and leases have ended, the next one stands on all members.
STOPPED_SERVER = b'''c1 create /f
c1 open /f
c1 append 1 a*13
%b
c1 append 1 b*3
%b
restart s2
restart s2
wait 61000
c1 append 1 c*5
replicas /f 0
c1 read 1 0 64
----
c1 done
c1 fd 1
c1 at 0
c1 refused 16 Failed
c1 at 16
replicas 1 s1 v2 21, s2 v2 21, s3 v2 21
c1 bytes 21 616161616161616161616161616262626363636363 rounds 2
'''
# A member's disk stops while a file's first record is appended, and that server begins again: the record is answered one of two places, and read there.
STOPPED_MEMBER = 'c1 create /f\nc1 open /f\n%s\nstart c1 append 1 a*13\nwait 100\nrestart s2\nfinish\nc1 read 1 0 13\nc1 read 1 13 13\n'
RECORD = 'c1 bytes 13 ' + '61' * 13 + ' '
# After how many calls a disk stops, and how much of the next write is made, as a line `fuse` has them.
MASTER_CALLS, SERVER_CALLS, MEMBER_CALLS = range(9), range(23), range(41)
FILLS = [b'old', b'new', b'0', b'1', b'7']

# Before each bad line a file is there and open, and a chunk.
BEFORE = b'c1 create /f\nc1 open /f\nc1 append 1 a\n'
AFTER = b'c1 done\nc1 fd 1\nc1 at 0\nline 4: bad line\n'
BAD_LINES = {'clients': 2, 'chunk': 64, 'block': 16, 'log_bytes': 4096}


def prints(settings, script, wanted, program):
    """The fault where a script prints something else, tells another fault than the one that stands behind, or ends with another status."""
    return differs(script.decode('latin1'), program.run(['sim', '-', *words_of(settings)], script), ran_of(wanted))


def file_prints(settings, path, wanted, program):
    """The same of the script in a file."""
    return differs(path, program.run(['sim', path, *words_of(settings)]), ran_of(wanted))


def row_test(row, settings):
    script, wanted = row.split(RULE)
    return functools.partial(prints, {**settings, **options_of(script)}, script, wanted)


def places_its_record(fuse, program):
    """The fault where the record of a script whose member stops isn't read where it was answered to stand."""
    ran = program.run(['sim', '-', *words_of(SMALL_CELL)], (STOPPED_MEMBER % fuse).encode())
    answers = ran.printed.decode().splitlines()
    read = {'c1 at 0': answers[3:4], 'c1 at 13': answers[4:5]}.get(answers[2] if len(answers) == 5 else '', [])
    is_read = (ran.status, ran.told, answers[:2]) == (0, b'', ['c1 done', 'c1 fd 1']) and read and read[0].startswith(RECORD)
    return [] if is_read else [f'{fuse}: {ran}']


def stopped_tests():
    for count in MEMBER_CALLS:
        for fill in FILLS:
            fuse = f'fuse s2 {count} {fill.decode()}'
            yield fuse, functools.partial(places_its_record, fuse)
    for row, node, calls in ((STOPPED_MASTER, b'master', MASTER_CALLS), (STOPPED_SERVER, b's2', SERVER_CALLS)):
        for count in calls:
            for fill in FILLS:
                fuse = b'fuse %b %d %b' % (node, count, fill)
                yield fuse.decode(), row_test(row.replace(b'%b', fuse), SMALL_CELL)


def worked_tests():
    for path in sorted(glob.glob(os.path.join(WORKED, '*.row*'))):
        name, kind = os.path.basename(path).split('.')
        for row in rows_of(path):
            if not HINDERED.search(row):
                yield name, row_test(row, {} if kind == 'rows' else SMALL_CELL)


def example_tests():
    for path in sorted(glob.glob(os.path.join(ROOT, 'examples', '*.gfs'))):
        with open(path, 'rb') as file:
            settings = options_of(file.read())
        with open(path.removesuffix('.gfs') + '.out', 'rb') as file:
            wanted = file.read()
        yield os.path.basename(path), functools.partial(file_prints, settings, path, wanted)


def bytes_of(line):
    """A bad line, in which `{61}` stands for the byte of that code, and `{61*100}` for it a hundred times."""
    def coded(found):
        code, _, count = found[1].partition('*')
        return chr(int(code, 16)) * int(count or '1')
    return re.sub(r'\{([^}]*)\}', coded, line).encode('latin1')


def bad_line_tests():
    with open(os.path.join(WORKED, 'bad_lines.txt'), encoding='ascii') as file:
        lines = [line for line in file.read().splitlines() if not line.startswith('#')]
    for line in lines:
        yield 'bad_lines', functools.partial(prints, BAD_LINES, BEFORE + bytes_of(line), AFTER)


def a_bad_first_line(program):
    """Nothing is printed before it."""
    for settings in (SMALL_CELL, {'servers': 1, 'chunk': 64, 'block': 16}):
        ran = program.run(['sim', '-', *words_of(settings)], b'c1 fly /x\n')
        yield from differs(str(settings), ran, (1, b'', b'gfscell: line 1: bad line\n'))


def tests():
    """Each test's name, and what it is."""
    return [(a_bad_first_line.__name__, a_bad_first_line), *stopped_tests(), *worked_tests(), *example_tests(), *bad_line_tests()]

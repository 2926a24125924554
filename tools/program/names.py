"""Tests by `sim`: names in a region of so many bytes, and copies whose paths are as long as paths can be."""
from rows import SMALL_CELL
from running import Ran, differs, words_of

# A region that some hundred names fill, and how many are tried.
SMALL, MANY = 16_384, 600
LONG = 'a' * 255
FULL = 'c1 refused 13 NamesFull'
# The last part of a path of 4,096 bytes, as a name of one byte and fifteen long ones begin it.
LAST = 'b' * 253


def in_region(program, size, lines):
    return program.run(['sim', '-', *words_of({**SMALL_CELL, 'names_heap': size})], text_of(lines))


def text_of(lines):
    return ''.join(f'{line}\n' for line in lines).encode()


def mkdirs(paths):
    return [f'c1 mkdir {path}' for path in paths]


def many():
    return mkdirs(f'/d{number}' for number in range(1, MANY + 1))


def made_by(printed):
    """The directories that were made, of many."""
    answers = printed.decode().splitlines()[:MANY]
    return [f'd{number}' for number, answer in enumerate(answers, 1) if answer == 'c1 done']


def listed(names):
    return f'c1 names {len(names)} ' + ' '.join(sorted(names))


def no_cell_starts_in_16_bytes(program):
    return differs('it', in_region(program, 16, mkdirs(['/a'])), (1, b'', b'gfscell: cannot start\n'))


def a_full_region_has_room_once_names_are_gone(program):
    """The first directory is made, and at least one is refused; a list shows just those that were made. Once they are gone the next one is made."""
    filled = in_region(program, SMALL, [*many(), 'c1 list /'])
    made = made_by(filled.printed)
    answers = ['c1 done' if f'd{number}' in made else FULL for number in range(1, MANY + 1)]
    wanted = text_of([*answers, listed(['.gone/', *(f'{name}/' for name in made)])])
    yield from differs('of many', filled, (0, wanted, b''))
    if made[:1] != ['d1'] or len(made) == MANY:
        yield f'{len(made)} of {MANY} are made'
    emptied = in_region(program, SMALL, [*many(), 'c1 list /', *(f'c1 rmdir /{name}' for name in made), 'c1 mkdir /a', 'c1 list /'])
    again = text_of(['c1 done'] * (len(made) + 1) + [listed(['.gone/', 'a/'])])
    yield from differs('once they are gone', emptied, (0, wanted + again, b''))


def a_master_that_begins_again_has_the_names(program):
    """Its log is replayed into the region, which the names of before fill."""
    before = in_region(program, SMALL, [*many(), 'c1 list /'])
    yield from differs('behind a restart', in_region(program, SMALL, [*many(), 'restart master', 'c1 list /']), before)
    if len(made_by(before.printed)) <= 100:
        yield 'few are made'


def long_names_have_their_beginning_once(program):
    """Of 204 directories below one another's long names; a list of their full paths would not fit."""
    deep = [f'/{LONG}' * depth for depth in range(1, 5)]
    lines = mkdirs([*deep, *(f'{deep[-1]}/{number}' for number in range(1, 201))])
    return differs('it', in_region(program, 131_072, lines), (0, text_of(['c1 done'] * 204), b''))


def each_call_that_needs_room_is_refused(program):
    """In a full region; what is there stays as it was."""
    before = ['c1 create /f', 'c1 open /f', *many()]
    calls = ['c1 mkdir /x', 'c1 create /x', 'c1 delete /f', 'c1 rename /f /x', 'c1 snapshot /f /x']
    ran = in_region(program, SMALL, [*before, *calls, 'c1 list /', 'c1 list /.gone', 'c1 open /f'])
    printed = ran.printed.decode().splitlines()
    made = made_by(ran.printed.split(b'\n', 2)[-1])
    yield from differs('status and fault', (ran.status, ran.told), (0, b''))
    yield from differs('calls', printed[len(before):], [FULL] * len(calls) + [listed(['.gone/', 'f', *(f'{name}/' for name in made)]), 'c1 names 0', 'c1 fd 2'])


def a_copied_path_has_at_most_4096_bytes(program):
    """By one byte more a snapshot is refused, and changes nothing."""
    deep = ['/d' + f'/{LONG}' * depth for depth in range(16)]
    last = f'{deep[-1]}/{LAST}'
    lines = [*mkdirs(deep), f'c1 create {last}', 'c1 snapshot /d /ee', 'c1 list /', 'c1 snapshot /d /e', 'c1 list /', f'c1 create {last}b']
    wanted = ['c1 done'] * 17 + ['c1 refused 11 TooLong', 'c1 names 2 .gone/ d/', 'c1 done', 'c1 names 3 .gone/ d/ e/', 'c1 refused 1 BadPath']
    ran = program.run(['sim', '-', *words_of(SMALL_CELL)], text_of(lines))
    return differs('it', ran, Ran(0, text_of(wanted), b''))


def tests():
    """Each test's name, and what it is."""
    return [(test.__name__, test) for test in (
        no_cell_starts_in_16_bytes, a_full_region_has_room_once_names_are_gone, a_master_that_begins_again_has_the_names, long_names_have_their_beginning_once,
        each_call_that_needs_room_is_refused, a_copied_path_has_at_most_4096_bytes)]

"""Tests: `take` copies crates with all that they stand on, once, and refuses what would replace another text."""
import os
import tempfile

from building import TOP
from take import files_of, rows_in
from test_building import Tests, put
from test_words import answer

LAUNCHER = os.path.join(TOP, 'gfscell')


def took(*words):
    """The status, what is printed, and what is said."""
    status, out, errors = answer(LAUNCHER, ['take', *words], '/')
    return status, out.decode(), errors.decode()


def names_in(folder):
    """The crates of a repository, by its folders and by its lines."""
    return sorted(os.listdir(os.path.join(folder, 'crates'))), sorted(rows_in(os.path.join(folder, 'crates.txt')))


def copies(folder, tests):
    """Crates and lines are copied, once each, as they stand."""
    put(os.path.join(folder, 'crates.txt'), 'own: bytes\n')
    put(os.path.join(folder, 'crates', 'own', 'src', 'lib.rt'), '')
    tests.same('take path_trie', took('path_trie', folder), (0, '3 crates taken: gfs_types label_tree path_trie\n', ''))
    tests.same('the crates there', names_in(folder), (['gfs_types', 'label_tree', 'own', 'path_trie'],) * 2)
    for name in ('gfs_types', 'label_tree', 'path_trie'):
        here, there = (files_of(os.path.join(top, 'crates', name)) for top in (TOP, folder))
        tests.same(f'the files of {name}', (there == here, 'src/lib.rt' in there), (True, True))
    rows = rows_in(os.path.join(folder, 'crates.txt'))
    tests.same('its line', (rows['own'], rows['path_trie']), ('own: bytes', rows_in(os.path.join(TOP, 'crates.txt'))['path_trie']))
    tests.same('once more', took('path_trie', folder), (0, '0 crates taken\n3 crates stood there in the same text: gfs_types label_tree path_trie\n', ''))
    tests.same('more crates', took('name_locks', 'leases', folder)[:2], (
        0, '4 crates taken: ordered_map name_locks chunk_table leases\n1 crates stood there in the same text: gfs_types\n'))
    tests.same('wrong bodies', [os.path.exists(os.path.join(top, 'crates', 'leases', 'must-fail')) for top in (TOP, folder)], [True, False])
    tests.same('the crates there', names_in(folder), (['chunk_table', 'gfs_types', 'label_tree', 'leases', 'name_locks', 'ordered_map', 'own', 'path_trie'],) * 2)


def refusals(folder, tests):
    """Nothing is written where one crate is another there."""
    before = names_in(folder)
    file = os.path.join(folder, 'crates', 'leases', 'src', 'lib.rt')
    with open(file, encoding='utf-8') as source:
        text = source.read()
    put(file, text + '// more\n')
    tests.same('another text', took('primary_order', folder), (1, '', f'gfscell: nothing is taken: {folder} has crates of other texts: leases\n'))
    put(file, text)
    lines = os.path.join(folder, 'crates.txt')
    with open(lines, encoding='utf-8') as source:
        rows = source.read()
    put(lines, rows.replace('leases: ', 'leases: bytes '))
    tests.same('another line', took('primary_order', folder)[0], 1)
    put(lines, rows)
    tests.same('what a refusal leaves', names_in(folder), before)
    tests.same('no crate', took('leeses', folder), (1, '', 'gfscell: nothing is taken: no crate leeses; did you mean leases?\n'))
    tests.same('this repository', took('leases', TOP), (1, '', f'gfscell: nothing is taken: {TOP} is this repository\n'))
    tests.same('no folder', (took('leases')[0], took('leases', 'path_trie')[::2]), (2, (1, 'gfscell: nothing is taken: path_trie is a crate; where is FOLDER?\n')))
    tests.same('a folder that is a file', took('leases', lines)[0], 1)


def handles(folder, tests):
    """What the other repository has to allow is told until it does."""
    tests.has('handles', took('cell_run', folder)[1].splitlines(), 'HANDLES there has to allow Threads, Wait')
    put(os.path.join(folder, 'HANDLES'), 'Handles allowed: Threads, Wait.\n')
    tests.same('allowed handles', 'HANDLES' in took('cell_run', folder)[1], False)


def faults():
    """How many things were tested, and what is wrong."""
    tests = Tests()
    with tempfile.TemporaryDirectory() as top:
        first, second = (os.path.join(os.path.realpath(top), name) for name in ('first', 'second'))
        copies(first, tests)
        refusals(first, tests)
        handles(second, tests)
    return tests.count, tests.faults

"""Tests by `sim` and `serve`: which settings a cell can have. One out of its range starts none."""
import functools

from rows import SMALL_CELL
from running import differs, words_of

# Of each setting what is out of its range just below and above, or otherwise.
OUT_OF_RANGE = {
    'chunk': (48, 72, 67_108_880), 'block': (8, 24, 128), 'goal': (0, 9), 'lease_ms': (0, 3_600_001), 'skew_ms': (60_000, 60_001), 'attempt_ms': (0, 600_001),
    'attempts': (0, 17), 'cache_entries': (0, 65_537), 'cache_ms': (0, 86_400_001), 'push_entries': (0, 4_097), 'keep_ms': (0, 31_536_000_001),
    'slots': (0, 65_537), 'log_bytes': (4_095, 1_073_741_825), 'journal': (15, 16_777_217)}
# A number that would be in range by its last 32 bits.
WIDE = 1 << 40
LEAST = {'chunk': 64, 'block': 16, 'goal': 1, 'lease_ms': 1, 'skew_ms': 0, 'attempt_ms': 1, 'attempts': 1, 'cache_entries': 1, 'cache_ms': 1, 'push_entries': 1,
         'keep_ms': 1, 'slots': 1, 'log_bytes': 4_096, 'journal': 16}
# Those that cost no memory.
GREATEST = {'goal': 8, 'lease_ms': 3_600_000, 'skew_ms': 60_000, 'attempt_ms': 600_000, 'attempts': 16, 'cache_entries': 65_536, 'cache_ms': 86_400_000,
            'push_entries': 4_096, 'keep_ms': 31_536_000_000, 'journal': 16_777_216}


def is_refused(way, settings, program):
    """The fault where a cell starts whose settings differ so from a small one's."""
    return differs(f'{way} {settings}', program.run([*way, *words_of({**SMALL_CELL, **settings})]), (1, b'', b'gfscell: cannot start\n'))


def is_taken(settings, program):
    return differs(str(settings), program.run(['sim', '-', *words_of({**SMALL_CELL, **settings})], b'c1 list /\n'), (0, b'c1 names 1 .gone/\n', b''))


def tests():
    """Each test's name, and what it is."""
    refused = [{name: value} for name, values in OUT_OF_RANGE.items() for value in (*values, WIDE + LEAST[name])]
    return [*(('settings', functools.partial(is_refused, way, settings)) for way in (['sim', '-'], ['serve']) for settings in refused),
            *(('settings', functools.partial(is_taken, settings)) for settings in (LEAST, GREATEST, {'lease_ms': 60_001, 'skew_ms': 60_000}))]

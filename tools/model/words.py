"""Values of the definitions, and the words of std, lru and sha2 that they use.

Lists are lists, numbers are numbers, records and pairs are dictionaries, variants are tuples that begin with their
name, and finite maps are FiniteMap.
"""
import hashlib
from functools import partial
from itertools import islice


class FiniteMap:
    """A finite map, which is never changed. Its entries in the order of their keys are listed when they are first asked for."""
    __slots__ = ('items', 'listed')

    def __init__(self, items):
        self.items = items
        self.listed = None

    def __eq__(self, other):
        return isinstance(other, FiniteMap) and self.items == other.items


class Grown:
    """A list to whose end much is put, one after another: those that it became begin in the same store, so that none is copied."""
    __slots__ = ('store', 'count')

    def __init__(self, store):
        self.store = store
        self.count = len(store)

    def __len__(self):
        return self.count

    def __iter__(self):
        return islice(self.store, self.count)

    def __getitem__(self, place):
        return self.store[slice(*place.indices(self.count)) if isinstance(place, slice) else range(self.count)[place]]

    def __add__(self, more):
        store = self.store if len(self.store) == self.count else self[:]
        store.extend(more)
        return Grown(store)

    def __radd__(self, before):
        return before + self[:]

    def __eq__(self, other):
        return len(self) == len(other) and self[:] == other[:]


def begins_with(elements, start):
    """Whether a list begins with another one."""
    if isinstance(elements, Grown) and isinstance(start, Grown) and elements.store is start.store:
        return start.count <= elements.count
    return elements[:len(start)] == start[:]


class Function:
    """A function of so many arguments, and those that it was given."""
    __slots__ = ('count', 'run', 'given')

    def __init__(self, count, run, given=()):
        self.count = count
        self.run = run
        self.given = given


NONE = ('None',)


def some(value):
    return ('Some', value)


def apply(head, *arguments):
    if isinstance(head, Function):
        given = head.given + arguments
        more = len(given) - head.count
        if more < 0:
            return Function(head.count, head.run, given)
        return apply(head.run(*given[:head.count]), *given[head.count:]) if more else head.run(*given)
    if isinstance(head, tuple):
        return head + arguments
    if arguments:
        raise TypeError(f'{head!r} is applied')
    return head


def of_one(function):
    """A function or a variant as a Python function of one argument."""
    if isinstance(function, Function) and function.count == len(function.given) + 1:
        return partial(function.run, *function.given) if function.given else function.run
    return partial(apply, function)


def pair(first, second):
    return {'0': first, '1': second}


def to_key(key):
    """A key of a finite map as Python can hash it: a list as a tuple, and a record or pair as its fields."""
    if isinstance(key, int):
        return key
    if isinstance(key, list):
        return tuple(key) if not key or isinstance(key[0], int) else tuple(to_key(k) for k in key)
    return ('fields', *((n, to_key(v)) for n, v in key.items())) if isinstance(key, dict) else key


def from_key(key):
    if not isinstance(key, tuple):
        return key
    if key[:1] == ('fields',):
        return {n: from_key(v) for n, v in key[1:]}
    return list(key) if not key or isinstance(key[0], int) else [from_key(k) for k in key]


def map_get(table, key):
    found = to_key(key)
    return some(table.items[found]) if found in table.items else NONE


def map_entries(table):
    if table.listed is None:
        table.listed = [pair(from_key(k), table.items[k]) for k in sorted(table.items)]
    return table.listed


def map_insert(table, key, value):
    items = dict(table.items)
    items[to_key(key)] = value
    return FiniteMap(items)


def map_remove(table, key):
    items = dict(table.items)
    items.pop(to_key(key), None)
    return FiniteMap(items)


def map_of(entries):
    items = {}
    for entry in entries:
        items.setdefault(to_key(entry['0']), entry['1'])
    return FiniteMap(items)


def first_that(test, elements):
    passes = of_one(test)
    for element in elements:
        if passes(element):
            return some(element)
    return NONE


def position(test, elements):
    passes = of_one(test)
    for place, element in enumerate(elements):
        if passes(element):
            return some(place)
    return NONE


def place_or_length(test, elements):
    return unwrap_or(position(test, elements), len(elements))


def unwrap_or(option, default):
    return option[1] if option[0] == 'Some' else default


def option_map(change, option):
    return some(apply(change, option[1])) if option[0] == 'Some' else NONE


def split_at(test, elements):
    parts = [[]]
    for element in elements:
        if apply(test, element):
            parts.append([])
        else:
            parts[-1].append(element)
    return parts


def last_place(test, elements):
    passes = of_one(test)
    for place in range(len(elements) - 1, -1, -1):
        if passes(elements[place]):
            return place
    return None


def before_last(test, elements):
    place = last_place(test, elements)
    return elements if place is None else elements[:place]


def after_last(test, elements):
    place = last_place(test, elements)
    return elements if place is None else elements[place + 1:]


def fold(step, value, elements):
    for element in elements:
        value = apply(step, value, element)
    return value


def lookup_entry(test, entries):
    return first_that(Function(1, lambda entry: apply(test, entry['0'])), entries)


def lookup(test, entries):
    found = lookup_entry(test, entries)
    return some(found[1]['1']) if found[0] == 'Some' else NONE


def remove_entry(test, entries):
    for place, entry in enumerate(entries):
        if apply(test, entry['0']):
            return entries[:place] + entries[place + 1:]
    return entries


def with_front(test, entries, entry, otherwise):
    """The entry whose key passes is taken out, and this one made of it goes first; else what is given instead."""
    found = lookup_entry(test, entries)
    return [entry(found[1])] + remove_entry(test, entries) if found[0] == 'Some' else otherwise


def put_entries(same, cache, key, value):
    pushed_out = [pair(key, value)] + cache['entries'][:max(0, cache['cap'] - 1)]
    return with_front(Function(1, lambda k: apply(same, key, k)), cache['entries'], lambda e: pair(e['0'], value), pushed_out)


def demoted(test, entries):
    found = lookup_entry(test, entries)
    return remove_entry(test, entries) + [found[1]] if found[0] == 'Some' else entries


# how many arguments each takes, and what it gives
LIBRARY = {
    'length': (1, len), 'take': (2, lambda n, xs: xs[:n]), 'drop': (2, lambda n, xs: xs[n:]),
    'map': (2, lambda f, xs: list(map(of_one(f), xs))),
    'filter': (2, lambda f, xs: list(filter(of_one(f), xs))),
    'flat_map': (2, lambda f, xs: [y for ys in map(of_one(f), xs) for y in ys]),
    'filter_map': (2, lambda f, xs: [r[1] for r in map(of_one(f), xs) if r[0] == 'Some']),
    'find': (2, first_that), 'position': (2, position), 'position_or_len': (2, place_or_length),
    'list_any': (2, lambda f, xs: any(map(of_one(f), xs))),
    'list_all': (2, lambda f, xs: all(map(of_one(f), xs))),
    'take_while': (2, lambda f, xs: xs[:place_or_length(Function(1, lambda x: not apply(f, x)), xs)]),
    'before_first': (2, lambda f, xs: xs[:place_or_length(f, xs)]),
    'after_first': (2, lambda f, xs: xs[place_or_length(f, xs) + 1:]),
    'fold': (3, fold), 'reverse': (1, lambda xs: xs[::-1]), 'push': (2, lambda xs, x: xs + [x]),
    'insert': (3, lambda xs, i, x: xs[:i] + [x] + xs[i:]), 'remove': (2, lambda xs, i: xs[:i] + xs[i + 1:]),
    'between': (3, lambda i, j, xs: xs[i:j]), 'concat': (1, lambda xs: [y for x in xs for y in x]),
    'zip': (2, lambda xs, ys: [pair(x, y) for x, y in zip(xs, ys)]),
    'enumerate_from': (2, lambda n, xs: [pair(n + i, x) for i, x in enumerate(xs)]),
    'range_with_len': (2, lambda a, n: list(range(a, a + n))),
    'replicate': (2, lambda n, x: [x] * n), 'min': (2, min), 'max': (2, max),
    'unwrap_or': (2, unwrap_or), 'option_map': (2, option_map),
    'option_map_or': (3, lambda f, o, default: apply(f, o[1]) if o[0] == 'Some' else default),
    'option_and_then': (2, lambda f, o: apply(f, o[1]) if o[0] == 'Some' else NONE),
    'option_or': (2, lambda o, p: o if o[0] == 'Some' else p), 'option_and': (2, lambda o, p: p if o[0] == 'Some' else NONE),
    'option_flatten': (1, lambda o: o[1] if o[0] == 'Some' else NONE),
    'option_to_list': (1, lambda o: [o[1]] if o[0] == 'Some' else []),
    'is_some': (1, lambda o: o[0] == 'Some'), 'is_none': (1, lambda o: o[0] == 'None'),
    'slice_get': (2, lambda xs, i: some(xs[i]) if i < len(xs) else NONE), 'slice_index': (2, lambda xs, i: xs[i]),
    'slice_set': (3, lambda xs, i, x: xs[:i] + [x] + xs[i + 1:] if i < len(xs) else xs),
    'slice_index_or': (3, lambda xs, i, default: xs[i] if i < len(xs) else default),
    'sum': (1, sum), 'sum_by': (2, lambda f, xs: sum(map(of_one(f), xs))),
    'count_by': (2, lambda f, xs: len(list(filter(of_one(f), xs)))),
    'nat_lt': (2, lambda a, b: a < b), 'nat_le': (2, lambda a, b: a <= b), 'nat_eq': (2, lambda a, b: a == b),
    'cond': (3, lambda b, yes, no: yes if b else no),
    'not': (1, lambda b: not b), 'true': (0, True), 'false': (0, False), 'tt': (0, None),
    'suc': (1, lambda n: n + 1), 'pred': (1, lambda n: max(0, n - 1)), 'zero': (0, 0),
    'nat_cmp': (2, lambda a, b: ('Less',) if a < b else ('Equal',) if a == b else ('Greater',)),
    'codes': (1, lambda s: list(s.encode())), 'byte': (1, ord), 'bytes_eq': (2, lambda a, b: a == b),
    'starts_with': (3, lambda same, xs, start: xs[:len(start)] == start),
    'ends_with': (3, lambda same, xs, end: xs[len(xs) - len(end):] == end if len(end) <= len(xs) else False),
    'before_last': (2, before_last), 'after_last': (2, after_last), 'slice_split': (2, split_at),
    'lookup': (2, lookup), 'lookup_entry': (2, lookup_entry), 'remove_entry': (2, remove_entry),
    'lookup_key': (2, lambda f, es: option_map(Function(1, lambda e: e['0']), lookup_entry(f, es))),
    'keys_of': (1, lambda es: [e['0'] for e in es]),
}
FINITE_MAPS = {
    'empty': (0, FiniteMap({})),
    'get': (2, map_get),
    'insert': (3, map_insert), 'remove': (2, map_remove),
    'contains_key': (2, lambda m, k: to_key(k) in m.items),
    'entries': (1, map_entries), 'keys': (1, lambda m: [entry['0'] for entry in map_entries(m)]),
    'values': (1, lambda m: [entry['1'] for entry in map_entries(m)]),
    'retain_keys': (2, lambda m, f: FiniteMap({k: v for k, v in m.items.items() if apply(f, from_key(k))})),
    'len': (1, lambda m: len(m.items)), 'from_entries': (1, map_of),
}
CACHES = {
    'lru_cache': (2, lambda entries, cap: {'entries': entries, 'cap': cap}), 'put_entries': (4, put_entries),
    'promoted': (2, lambda test, entries: with_front(test, entries, lambda e: e, entries)), 'demoted': (2, demoted),
    'last_entry': (1, lambda entries: some(entries[-1]) if entries else NONE),
}
DIGESTS = {'sha256': (1, lambda xs: list(hashlib.sha256(bytes(xs)).digest()))}
# The words of each folder that is not read, by the beginning of an import's path. The first that fits counts.
WORDS = [('Rattle.std.specs.FinMap', FINITE_MAPS), ('Rattle.lru.', CACHES), ('Rattle.sha2.', DIGESTS), ('Rattle.std.', LIBRARY)]
OPERATORS = {
    '◌+◌': lambda a, b: a + b, '◌-◌': lambda a, b: max(0, a - b), '◌*◌': lambda a, b: a * b, '◌==◌': lambda a, b: a == b,
    '◌/◌': lambda a, b: a // b if b else 0, '◌%◌': lambda a, b: a % b if b else a, '◌++◌': lambda a, b: a + b,
    '◌∷◌': lambda a, b: [a] + b, '◌&&◌': lambda a, b: a and b, '◌||◌': lambda a, b: a or b, '◌^◌': lambda a, b: a ** b}

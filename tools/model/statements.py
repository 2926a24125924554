"""Statements of crates/protocol_invariant/specs as Python functions: conjunctions, choices, implications, and what is said
of each entry of a table, each element of a list and each node. A record of statements is true where each of its fields is.

A statement of another kind (of all numbers, or an inductive relation) is never translated.
"""
import re

import antt
from translate import Program
from words import Function, apply

# how tight the words of statements bind, below all operators of terms
STATEMENT_OPERATORS = {'→': (1, 'right'), '⊎': (2, 'right'), '×': (3, 'right'), '≡': (4, 'none'), '≢': (4, 'none'), '≤': (4, 'none'), '<': (4, 'none')}
ALL_OPERATORS = {**STATEMENT_OPERATORS, **{name: (tightness + 5, side) for name, (tightness, side) in antt.OPERATORS.items()}}
WRITTEN = {'×': '({0} and {1})', '⊎': '({0} or {1})', '→': '((not {0}) or {1})', '≡': '({0} == {1})', '≢': '({0} != {1})', '≤': '({0} <= {1})', '<': '({0} < {1})'}
INLINE = {'IsTrue': '(%s)', 'IsFalse': '(not %s)', 'IsSome': '(%s[0] == "Some")'}
class Numbers(Function):
    """A function from numbers that `put` makes: what it is at some of them, and elsewhere."""
    __slots__ = ('at', 'elsewhere')

    def __init__(self, at, elsewhere):
        super().__init__(1, self.look_up)
        self.at = at
        self.elsewhere = elsewhere

    def look_up(self, number):
        return self.at[number] if number in self.at else apply(self.elsewhere, number)


def put(key, value, table):
    at, elsewhere = (table.at, table.elsewhere) if isinstance(table, Numbers) else ({}, table)
    return Numbers({**at, key: value}, elsewhere)


# the records' fields that were found false, the innermost first
broken = []


def told(name, value):
    if not value:
        broken.append(name)
    return value


def at_server(world, number, then):
    servers = world['servers']
    return not 0 < number <= len(servers) or apply(then, servers[number - 1])


def at_replica(world, number, handle, then):
    def on(server):
        replicas = server['disk']['replicas'].items
        return handle not in replicas or apply(then, replicas[handle])
    return at_server(world, number, Function(1, on))


# the quantifiers of specs/Each.antt, and what the library says of lists and options
NATIVE = {
    'EachEntry': (2, lambda table, then: all(apply(then, key, table.items[key]) for key in sorted(table.items))),
    'EachPlace': (2, lambda xs, then: all(apply(then, place, x) for place, x in enumerate(xs))),
    'EachNumber': (2, lambda count, then: all(apply(then, number) for number in range(count))),
    'EachServer': (2, lambda w, then: all(apply(then, i, s) for i, s in enumerate(w['servers'], 1))),
    'EachClient': (2, lambda w, then: all(apply(then, i, c) for i, c in enumerate(w['clients'], 1))),
    'EachReplica': (2, lambda w, then: all(apply(then, i, s, h, r) for i, s in enumerate(w['servers'], 1) for h, r in sorted(s['disk']['replicas'].items.items()))),
    'AtServer': (3, at_server), 'AtReplica': (4, at_replica),
    'AllByRecursion': (2, lambda then, xs: all(apply(then, x) for x in xs)),
    'IfSome': (2, lambda o, then: o[0] == 'None' or apply(then, o[1])),
    'IsSomeAnd': (2, lambda o, then: o[0] == 'Some' and apply(then, o[1])),
    'MatchBool': (3, lambda test, yes, no: yes if test else no), 'Contains': (2, lambda xs, x: x in xs),
    'IsSome': (1, lambda o: o[0] == 'Some'), 'IsTrue': (1, bool), 'IsFalse': (1, lambda b: not b),
}


class Parser(antt.Parser):
    def expression(self, least=0):
        if self.peek() in ('λ', 'let', 'elim', 'if'):
            return super().expression(least)
        left = self.application()
        while self.peek() in ALL_OPERATORS:
            tightness, side = ALL_OPERATORS[self.peek()]
            if tightness < least:
                break
            operator = self.next()
            left = ('operator', operator, left, self.expression(tightness if side == 'right' else tightness + 1))
        return left

    def application(self):
        head = self.atom()
        while self.peek() not in antt.ENDS_OF_APPLICATION and self.peek() not in ALL_OPERATORS:
            if self.peek() == '{':
                self.skip_implicit()
            else:
                head = ('apply', head, self.expression() if self.peek() in ('λ', 'if', 'let', 'elim') else self.atom())
        return head

    def atom(self):
        if self.peek() == '⊥':
            self.next()
            return ('statement', 'False')
        if self.peek() == 'Unit':
            self.next()
            return ('statement', 'True')
        return super().atom()

    def named_pattern(self, token, arguments):
        # a statement that is passed has one letter, as P
        return ('any', token) if len(token) == 1 and not arguments else super().named_pattern(token, arguments)


antt.Parser = Parser
RECORD = re.compile(r'pub record ([\w\']+)((?:\s*\([^()]*\))*)\s*:\s*Type 0 where(.*)', re.S)
FIELD = re.compile(r'^  pub (\w+) :', re.M)


def record_terms(module, body):
    """The fields of a record with their statements."""
    fields = list(FIELD.finditer(body))
    terms = []
    for field, following in zip(fields, fields[1:] + [None]):
        parser = Parser(module, body[field.end():following.start() if following else len(body)], 1)
        terms.append((field.group(1), parser.expression()))
        if parser.peek() is not None:
            raise module.fault(1, f'{field.group(1)}: not read to its end, at {parser.peek()}')
    return terms


def read_records(module):
    with open(module.path, encoding='utf8') as file:
        items = re.split(r'\n(?=\S)', file.read())
    for item in items:
        found = RECORD.match(item)
        if not found or not found.group(2).strip() or found.group(1) in module.equations:
            continue
        try:
            terms = record_terms(module, found.group(3))
        except antt.Unreadable:
            # a relation that is no computation
            continue
        names = [n for group in re.findall(r'\(([^:()]*):', found.group(2)) for n in group.split()]
        module.equations[found.group(1)] = [(item, 1)]
        module.parsed[found.group(1)] = [([('any', n) for n in names], ('record of statements', found.group(1), terms), 1)]


class Statements(Program):
    """The definitions and statements of one folder of crates, as Python functions."""

    def __init__(self, folder=antt.CRATES_FOLDER):
        super().__init__(folder)
        self.space.update(told=told, put=put)
        self.read = set()
        for name, (count, value) in NATIVE.items():
            self.space[f'native_{name}'] = value
            self.space[f'Native_{name}'] = Function(count, value)
        module_of = self.crates.module

        def module(crate, name):
            found = module_of(crate, name)
            if found.path not in self.read:
                self.read.add(found.path)
                read_records(found)
            return found
        self.crates.module = module

    def named(self, module, name, line):
        return ('native', name) if name in NATIVE else super().named(module, name, line)

    def term(self, module, term, names):
        if term[0] == 'statement':
            return term[1]
        if term[0] == 'record of statements':
            return '(' + ' and '.join(f'told("{term[1]}.{n}", {self.term(module, body, names)})' for n, body in term[2]) + ')'
        if term[0] == 'operator' and term[1] in WRITTEN:
            return WRITTEN[term[1]].format(self.term(module, term[2], names), self.term(module, term[3], names))
        return super().term(module, term, names)

    def call(self, what, arguments):
        if what[0] == 'definition' and (what[1].name, what[2]) == ('relaxed_file.Machine', 'put') and len(arguments) == 3:
            return f'put({", ".join(arguments)})'
        if what[0] != 'native':
            return super().call(what, arguments)
        count = NATIVE[what[1]][0]
        if what[1] in INLINE and len(arguments) == count:
            return INLINE[what[1]] % tuple(arguments)
        if len(arguments) < count:
            return f'Function({count}, native_{what[1]}, ({"".join(a + ", " for a in arguments)}))' if arguments else f'Native_{what[1]}'
        return f'native_{what[1]}({", ".join(arguments)})'

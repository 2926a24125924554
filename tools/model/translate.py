"""Makes Python functions of definitions: each becomes one function with the same name, its cases in order.

`Program().function(crate, module, name)` is a definition's value, made with all that it needs when it is first asked for.
"""
import re
import sys

import state
from antt import CRATES_FOLDER, Crates
from words import OPERATORS, WORDS, Function, FiniteMap, apply

sys.setrecursionlimit(400_000)
# words that are written out where they have all their arguments
INLINE = {
    'nat_lt': '(%s < %s)', 'nat_le': '(%s <= %s)', 'nat_eq': '(%s == %s)', 'not': '(not %s)', 'suc': '(%s + 1)',
    'length': 'len(%s)', 'is_some': '(%s[0] == "Some")', 'is_none': '(%s[0] == "None")', 'bytes_eq': '(%s == %s)',
    'min': 'min(%s, %s)', 'max': 'max(%s, %s)', 'true': 'True', 'false': 'False'}
# words that are written out where their first argument is a function of one argument; its term is `{each}`, of `{one}`
EACH = {
    'map': '[{each} for {one} in {all}]', 'filter': '[{one} for {one} in {all} if {each}]', 'list_any': 'any({each} for {one} in {all})',
    'list_all': 'all({each} for {one} in {all})', 'flat_map': '[part for {one} in {all} for part in {each}]', 'sum_by': 'sum({each} for {one} in {all})'}
INFIX = {
    '&&': '(%s and %s)', '||': '(%s or %s)', '==': '(%s == %s)', '+': '(%s + %s)', '++': '(%s + %s)', '*': '(%s * %s)',
    '∷': '([%s] + %s)', '-': 'less(%s, %s)', '/': 'divided(%s, %s)', '%': 'rest_of(%s, %s)'}
TAIL = '    '


def constant(value_of):
    kept = []

    def value():
        if not kept:
            kept.append(value_of())
        return kept[0]
    return value


def same(one, other):
    return one is other or isinstance(one, int) and one == other


def kept(value_of):
    """The function, which remembers what it gave last, and of what."""
    last = [(), None]

    def value(*given):
        if len(given) != len(last[0]) or not all(map(same, given, last[0])):
            last[:] = [given, value_of(*given)]
        return last[1]
    return value


def no_case(name):
    raise ValueError(f'no case of {name}')


def first_space():
    space = {'Function': Function, 'FiniteMap': FiniteMap, 'apply': apply, 'constant': constant, 'kept': kept, 'no_case': no_case,
             'less': OPERATORS['◌-◌'], 'divided': OPERATORS['◌/◌'], 'rest_of': OPERATORS['◌%◌']}
    for place, (_, table) in enumerate(WORDS):
        for name, (count, value) in table.items():
            space[f'w{place}_{name}'] = value
            if count:
                space[f'W{place}_{name}'] = Function(count, value)
    for place, value in enumerate(OPERATORS.values()):
        space[f'operator_{place}'] = Function(2, value)
    return space


def element_at(xs, n):
    return ('Some', xs[n]) if n < len(xs) else ('None',)


def with_at(xs, n, y):
    return xs[:n] + [y] + xs[n + 1:] if n < len(xs) else xs


# definitions that take too long as they stand, where a module of this name has them; `check_quick` compares both
QUICK = {('Tables', 'element_at'): element_at, ('Tables', 'with_at'): with_at}
# definitions that are asked of the same again and again, as of a block at each of its places
KEPT = {('StoredBytes', 'is_lost')}


class Program:
    """The definitions of one folder of crates, as Python functions."""

    def __init__(self, folder=CRATES_FOLDER, is_quick=True):
        self.crates = Crates(folder)
        self.is_quick = is_quick
        self.space = first_space()
        self.known = set()
        self.wanted = []
        self.count = 0

    def function(self, crate, module, name):
        """The value of a definition: a Function, or what it is where it takes no argument."""
        me = self.want(self.crates.module(crate, module), name)
        pieces = []
        while self.wanted:
            pieces.append(self.definition(*self.wanted.pop()))
        if pieces:
            exec(compile('\n'.join(pieces), 'definitions', 'exec'), self.space)
        return self.space['F_' + me] if 'F_' + me in self.space else self.space[me]()

    def has(self, crate, module, name):
        return name in self.crates.module(crate, module).equations

    def want(self, module, name):
        me = 'd_' + re.sub(r'\W', '_', f'{module.name}__{name}')
        if (module.path, name) not in self.known:
            if name not in module.equations:
                raise module.fault(1, f'{name} is not defined')
            self.known.add((module.path, name))
            self.wanted.append((me, module, name))
        return me

    def fresh(self, name):
        self.count += 1
        return 'v_%s_%d' % (re.sub(r'\W', '_', name), self.count)

    def definition(self, me, module, name):
        equations = module.equations_of(name)
        count = len(equations[0][0])
        quick = QUICK.get((module.name.split('.')[-1], name)) if self.is_quick else None
        if quick:
            self.space[me] = quick
            return f'F_{me} = Function({count}, {me})'
        if count == 0:
            return f'@constant\ndef {me}():\n    return {self.term(module, equations[0][1], {})}'
        arguments = [f'a{i}' for i in range(count)]
        lines = ['@kept'] if (module.name.split('.')[-1], name) in KEPT else []
        lines.append(f'def {me}({", ".join(arguments)}):')
        for patterns, body, _ in equations:
            self.case(module, patterns, arguments, body, {}, lines)
        lines.append(f'    no_case("{module.name}.{name}")')
        return '\n'.join(lines) + f'\nF_{me} = Function({count}, {me})'

    def case(self, module, patterns, arguments, body, names, lines):
        """The lines that return a case's term where these arguments fit its patterns."""
        names = dict(names)
        depth = 1
        for pattern, argument in zip(patterns, arguments):
            depth = self.pattern(pattern, argument, names, lines, depth)
        lines.append(TAIL * depth + 'return ' + self.term(module, body, names))

    def pattern(self, pattern, value, names, lines, depth):
        """The lines that test a pattern and bind its names; how deep what follows stands."""
        pad = TAIL * depth
        kind = pattern[0]
        if kind == 'any':
            names[pattern[1]] = value
            return depth
        inner = []
        if kind == 'variant':
            lines.append(f'{pad}if {value}[0] == "{pattern[1]}":')
            inner = [(f'{value}[{place}]', p) for place, p in enumerate(pattern[2], 1)]
        elif kind == 'list':
            lines.append(f'{pad}if not {value}:')
        elif kind == 'first and rest':
            lines.append(f'{pad}if {value}:')
            inner = [(f'{value}[0]', pattern[1]), (f'{value}[1:]', pattern[2])]
        elif kind == 'truth':
            lines.append(f'{pad}if {value}:' if pattern[1] else f'{pad}if not {value}:')
        elif kind == 'zero':
            lines.append(f'{pad}if {value} == 0:')
        else:
            lines.append(f'{pad}if {value} > 0:')
            inner = [(f'{value} - 1', pattern[1])]
        depth += 1
        for text, part in inner:
            bound = self.fresh(part[1] if part[0] == 'any' else 'part')
            lines.append(TAIL * depth + f'{bound} = {text}')
            depth = self.pattern(part, bound, names, lines, depth)
        return depth

    def term(self, module, term, names):
        """A term as a Python expression; `names` are those of its arguments."""
        def part(inner):
            return self.term(module, inner, names)
        kind = term[0]
        if kind in ('number', 'text'):
            return repr(term[1])
        if kind in ('name', 'apply'):
            terms = []
            while term[0] == 'apply':
                terms.insert(0, term[2])
                term = term[1]
            return self.each(module, term, terms, names) or self.applied(module, term, [part(it) for it in terms], names)
        if kind == 'if':
            return f'({part(term[2])} if {part(term[1])} else {part(term[3])})'
        if kind == 'operator':
            return INFIX[term[1]] % (part(term[2]), part(term[3]))
        if kind == 'let':
            bound = self.fresh(term[1])
            return f'(({bound} := {part(term[2])}), {self.term(module, term[3], {**names, term[1]: bound})})[1]'
        if kind == 'record':
            fields = ', '.join(f'"{name}": {part(value)}' for name, value in term[2])
            return '{' + (f'**{part(term[1])}, ' if term[1] else '') + fields + '}'
        if kind == 'function':
            inner = {name: self.fresh(name) for name in term[1]}
            return f'Function({len(term[1])}, lambda {", ".join(inner[n] for n in term[1])}: {self.term(module, term[2], {**names, **inner})})'
        if kind == 'list':
            return '[]'
        if kind == 'field':
            return f'{part(term[1])}["{term[2]}"]'
        if kind == 'tuple':
            return '{' + ', '.join(f'"{place}": {part(value)}' for place, value in enumerate(term[1])) + '}'
        return self.elimination(module, term, names)

    def elimination(self, module, term, names):
        """The cases of an `elim` become a function of the term and of all names."""
        me = self.fresh('elim')
        outer = sorted(set(names.values()))
        lines = [f'def {me}(value, {", ".join(outer)}):']
        for pattern, body in term[2]:
            self.case(module, [pattern], ['value'], body, names, lines)
        lines.append(f'    no_case("an elim of {module.name}")')
        exec(compile('\n'.join(lines), 'definitions', 'exec'), self.space)
        return f'{me}({self.term(module, term[1], names)}, {", ".join(outer)})'

    def each(self, module, head, terms, names):
        """A word of `EACH` with both arguments, as a comprehension; None where it can't be one."""
        if len(terms) != 2 or terms[0][0] != 'function' or len(terms[0][1]) > 1 or head[0] != 'name' or head[1][-1] not in EACH:
            return None
        what = self.named(module, head[1][0], head[2]) if len(head[1]) == 1 and head[1][0] not in names else None
        if what is None or what[0] != 'word' or WORDS[what[1]][0] != 'Rattle.std.':
            return None
        one = self.fresh(terms[0][1][0])
        each = self.term(module, terms[0][2], {**names, terms[0][1][0]: one})
        elements = self.term(module, terms[1], names)
        # a name that is bound in a comprehension is one of what stands around it
        return None if ':=' in each + elements or 'lambda' in each else EACH[what[2]].format(each=each, one=one, all=elements)

    def applied(self, module, head, arguments, names):
        if head[0] != 'name':
            return applied_to(self.term(module, head, names), arguments)
        parts = head[1]
        if parts[0] in names:
            return applied_to(names[parts[0]] + fields_of(parts[1:]), arguments)
        if parts[0] in module.aliases and len(parts) > 1:
            what, rest = self.at_path(module, module.aliases[parts[0]], parts[1], head[2]), parts[2:]
        else:
            what, rest = self.named(module, parts[0], head[2]), parts[1:]
        if rest:
            return applied_to(self.call(what, []) + fields_of(rest), arguments)
        return self.call(what, arguments)

    def named(self, module, name, line):
        """What a name of a module stands for: a definition, a variant, or a word."""
        if name in OPERATORS:
            return ('operator', name)
        source, path, found = self.crates.source_of(module, name)
        if source:
            return ('definition', source, found)
        return self.word(module, path, found, line)

    def at_path(self, module, path, name, line):
        source = self.crates.module_at(path)
        if source:
            return self.named(source, name, line)
        return self.word(module, path, name, line)

    def word(self, module, path, name, line):
        for place, (beginning, table) in enumerate(WORDS):
            # a wrong definition may use std's words without their import
            if name in table and (path.startswith(beginning) or (not path and beginning == 'Rattle.std.')):
                return ('word', place, name)
        if name[0].isupper() and not path.startswith(('Rattle.std.specs.FinMap', 'Rattle.lru.')):
            return ('variant', name)
        raise module.fault(line, f'{name} is not known' + (f'; tools/model/words.py has no such word of {path}' if path else ' here'))

    def call(self, what, arguments):
        if what[0] == 'variant':
            return '("%s",%s)' % (what[1], ''.join(' ' + a + ',' for a in arguments))
        if what[0] == 'operator':
            return applied_to(f'operator_{list(OPERATORS).index(what[1])}', arguments)
        if what[0] == 'definition':
            direct = self.want(what[1], what[2])
            whole = 'F_' + direct
            count = len(what[1].equations_of(what[2])[0][0])
            if count == 0:
                return applied_to(direct + '()', arguments)
        else:
            direct, whole = f'w{what[1]}_{what[2]}', f'W{what[1]}_{what[2]}'
            count = WORDS[what[1]][1][what[2]][0]
            if count == 0:
                return applied_to(INLINE.get(what[2], direct) if WORDS[what[1]][0] == 'Rattle.std.' else direct, arguments)
            if what[2] in INLINE and len(arguments) == count and WORDS[what[1]][0] == 'Rattle.std.':
                return INLINE[what[2]] % tuple(arguments)
        if not arguments:
            return whole
        if len(arguments) < count:
            return f'Function({count}, {direct}, ({", ".join(arguments)},))'
        return applied_to(f'{direct}({", ".join(arguments[:count])})', arguments[count:])


def fields_of(names):
    return ''.join(f'["{name}"]' for name in names)


def applied_to(text, arguments):
    return f'apply({", ".join([text] + arguments)})' if arguments else text


def check_quick(program):
    """Faults of QUICK: where a definition that it stands in for gives something else."""
    faults = []
    slow = Program(program.crates.folder, is_quick=False)
    lists = [list(range(10, 10 + count)) for count in range(4)]
    for (module, name), quick in QUICK.items():
        try:
            if not slow.has(state.PROTOCOL, module, name):
                continue
        except Exception:
            continue
        definition = slow.function(state.PROTOCOL, module, name)
        for xs in lists:
            for n in range(5):
                given = (xs, n, 99)[:definition.count]
                if apply(definition, *given) != quick(*given):
                    faults.append(f'translate.py: {name} is not what the definition says of {given}')
    return faults

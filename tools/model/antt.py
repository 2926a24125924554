"""Reads definitions: the part of antt that the files in crates/*/specs use.

A file's imports and the equations of each definition become terms, which translate.py makes Python functions of. A
definition of another kind (a relation, a law) is never read past its tokens. A term is a tuple that begins with its kind.
"""
import os
import re

CRATES_FOLDER = os.environ.get('SPECS', os.path.join(os.path.dirname(os.path.abspath(__file__)), '..', '..', 'crates'))
TOKEN = re.compile(
    r'\s+|--[^\n]*|"[^"]*"|[0-9][0-9_]*|◌[^◌\s]+◌|[A-Za-z_][\w\'-]*(?<!-)(?:\.[\w\']+)*|\.[A-Za-z0-9_]+'
    r'|\+\+|==|&&|\|\||[λ∷(){}\[\];,.:=→↦+\-*/%≡×⊎≤<≢∥◌]|.')
# how tight each operator binds, and to which side it groups
OPERATORS = {
    '∷': (5, 'right'), '++': (5, 'right'), '==': (4, 'none'), '&&': (3, 'right'), '||': (2, 'right'),
    '+': (6, 'left'), '-': (6, 'left'), '*': (7, 'left'), '/': (7, 'left'), '%': (7, 'left')}
ENDS_OF_APPLICATION = {')', '}', ']', ';', ',', 'then', 'else', 'in', '=', None, '.', '|', 'as'}


class Unreadable(Exception):
    """What a file says isn't known here. The text names file and line."""


class Module:
    """A file of specs/: what it imports, and the equations of each definition with their lines."""

    def __init__(self, name, path):
        self.name = name
        self.path = path
        self.imported = {}
        self.aliases = {}
        self.equations = {}
        self.parsed = {}

    def fault(self, line, text):
        return Unreadable(f'{self.path}:{line}: {text}')

    def equations_of(self, name):
        """Each equation of a definition as patterns, its term and its line."""
        if name not in self.parsed:
            self.parsed[name] = [Parser(self, text, line).equation() for text, line in self.equations[name]]
            if len({len(patterns) for patterns, _, _ in self.parsed[name]}) > 1:
                raise self.fault(self.equations[name][0][1], f'the equations of {name} take other counts of arguments')
        return self.parsed[name]


class Crates:
    """The modules that were read from one folder of crates. Which crates these are is found from the imports."""

    def __init__(self, folder=CRATES_FOLDER):
        self.folder = folder
        self.modules = {}

    def module(self, crate, name):
        path = os.path.join(self.folder, crate, 'specs', *name.split('.')) + '.antt'
        if path not in self.modules:
            if not os.path.exists(path):
                raise Unreadable(f'{path}: no such file')
            self.modules[path] = Module(f'{crate}.{name}', path)
            read_items(self.modules[path])
        return self.modules[path]

    def module_at(self, path):
        """The module that an import names, where it is one that is read."""
        found = re.match(r'^Rattle\.(\w+)\.specs\.([\w.]+)$', path)
        if not found or found.group(2).startswith('declared.') or not os.path.isdir(os.path.join(self.folder, found.group(1))):
            return None
        return self.module(*found.groups())

    def source_of(self, module, name):
        """The module whose equations a name in this one stands for, and its name there; else the path and name of its import."""
        path = ''
        while name not in module.equations:
            if name not in module.imported:
                return None, path, name
            path, name = module.imported[name]
            source = self.module_at(path)
            if not source:
                return None, path, name
            module = source
        return module, path, name


def read_items(module):
    items = []
    with open(module.path, encoding='utf8') as file:
        for line, text in enumerate(file.read().split('\n'), 1):
            if not text.strip() or text.startswith('--'):
                continue
            if text[0] in ' \t' and items:
                items[-1][0] += '\n' * (line - items[-1][2]) + text
                items[-1][2] = line
            else:
                items.append([text, line, line])
    for text, line, _ in items:
        word = re.match(r'(?:pub )?use (.*)', text, re.S)
        if word:
            read_import(module, word.group(1).strip(), line)
        elif not re.match(r'(pub|abbrev|module|data|record|unfolding|mod)\b', text):
            name = re.match(r"[\w'-]+", text)
            if name:
                module.equations.setdefault(name.group(), []).append((text, line))


def read_import(module, text, line):
    alias = re.match(r"^([\w.']+) as (\w+)$", text)
    items = re.match(r"^([\w.']+)\.\{(.*)\}$", text, re.S)
    if alias:
        module.aliases[alias.group(2)] = alias.group(1)
    elif items:
        for item in items.group(2).split(','):
            name, _, other = item.strip().partition(' as ')
            module.imported[other.strip() or name] = (items.group(1), name)
    elif re.match(r"^[\w.']+$", text):
        module.aliases[text.split('.')[-1]] = text
    else:
        raise module.fault(line, f'an import of an unknown form: {text}')


class Parser:
    """Reads one equation."""

    def __init__(self, module, text, line):
        self.module = module
        self.tokens = []
        self.place = 0
        place = 0
        spaced = True
        while place < len(text):
            token = TOKEN.match(text, place).group()
            here = line + text.count('\n', 0, place)
            place += len(token)
            if token.isspace() or token.startswith('--'):
                spaced = True
                continue
            if token == '[' and text[place:place + 1] == ']':
                token = '[]'
                place += 1
            self.tokens.append((token, spaced, here))
            spaced = False

    def line(self):
        return self.tokens[min(self.place, len(self.tokens) - 1)][2]

    def fault(self, text):
        near = ' '.join(token for token, _, _ in self.tokens[max(0, self.place - 8):self.place + 5])
        return self.module.fault(self.line(), f'{text} near "{near}"')

    def peek(self):
        return self.tokens[self.place][0] if self.place < len(self.tokens) else None

    def next(self):
        if self.place == len(self.tokens):
            raise self.fault('the equation ends too early')
        self.place += 1
        return self.tokens[self.place - 1][0]

    def expect(self, token):
        found = self.next()
        if found != token:
            raise self.fault(f'wanted {token} and got {found}')

    def equation(self):
        line = self.line()
        self.next()
        patterns = []
        while self.peek() != '=':
            if self.peek() == '{':
                self.skip_implicit()
            else:
                patterns.append(self.pattern())
        self.next()
        body = self.expression()
        if self.peek() is not None:
            raise self.fault(f'{self.peek()} is of an unknown form')
        return patterns, body, line

    def skip_implicit(self):
        """An argument in braces, which is of types."""
        depth = 0
        while True:
            token = self.next()
            depth += (token == '{') - (token == '}')
            if depth == 0:
                return

    def expression(self, least=0):
        token = self.peek()
        if token == 'λ':
            return self.function()
        if token == 'let':
            return self.let()
        if token == 'elim':
            return self.elimination()
        if token == 'if':
            self.next()
            test = self.expression()
            self.expect('then')
            yes = self.expression()
            self.expect('else')
            return ('if', test, yes, self.expression())
        left = self.application()
        while self.peek() in OPERATORS:
            tightness, side = OPERATORS[self.peek()]
            if tightness < least:
                break
            operator = self.next()
            left = ('operator', operator, left, self.expression(tightness if side == 'right' else tightness + 1))
        return left

    def function(self):
        self.next()
        names = []
        while self.peek() != '.':
            names.append(self.next())
            if not re.match(r"^[A-Za-z_][\w'-]*$", names[-1]):
                raise self.fault(f'{names[-1]} is no name of an argument')
        self.next()
        return ('function', names, self.expression())

    def let(self):
        self.next()
        name = self.next()
        depth = 0
        while not (self.peek() == '=' and depth == 0):
            token = self.next()
            depth += (token in ('(', '{')) - (token in (')', '}'))
        self.next()
        value = self.expression()
        self.expect('in')
        return ('let', name, value, self.expression())

    def elimination(self):
        """`elim term [ pattern ↦ term | .. ]`, with or without `as`."""
        self.next()
        value = self.application()
        if self.peek() == 'as':
            while self.peek() != '[':
                self.next()
        self.expect('[')
        cases = []
        while True:
            pattern = self.whole_pattern()
            self.expect('↦')
            cases.append((pattern, self.expression()))
            if self.next() == ']':
                return ('elim', value, cases)

    def application(self):
        head = self.atom()
        while True:
            token = self.peek()
            if token in ENDS_OF_APPLICATION or token in OPERATORS:
                return head
            if token == '{':
                self.skip_implicit()
                continue
            argument = self.expression() if token in ('λ', 'if', 'let', 'elim') else self.atom()
            head = ('apply', head, argument)

    def atom(self):
        line = self.line()
        token = self.next()
        if token == '(':
            atom = self.parenthesis()
        elif token == '[]':
            return ('list',)
        elif token[0] == '"':
            return ('text', token[1:-1])
        elif token[0].isdigit():
            return ('number', int(token.replace('_', '')))
        elif token == 'record':
            atom = self.record()
        elif re.match(r'^[A-Za-z_◌]', token) and token != '_':
            atom = ('name', tuple(token.split('.')), line)
        else:
            raise self.fault(f'{token} begins no term that is known here')
        while self.place < len(self.tokens) and self.is_field():
            atom = ('field', atom, self.next()[1:])
        return atom

    def is_field(self):
        token, spaced, _ = self.tokens[self.place]
        return token.startswith('.') and len(token) > 1 and not spaced

    def parenthesis(self):
        parts = [self.expression()]
        while self.peek() == ',':
            self.next()
            parts.append(self.expression())
        self.expect(')')
        return parts[0] if len(parts) == 1 else ('tuple', parts)

    def record(self):
        base = None if self.peek() == '{' else self.atom()
        self.expect('{')
        fields = []
        while self.peek() != '}':
            name = self.next()
            self.expect('=')
            fields.append((name, self.expression()))
            if self.peek() == ';':
                self.next()
        self.next()
        return ('record', base, fields)

    def pattern(self):
        token = self.next()
        if token == '(':
            inner = self.whole_pattern()
            self.expect(')')
            return inner
        return ('list',) if token == '[]' else self.named_pattern(token, [])

    def whole_pattern(self):
        if self.peek() in ('(', '[]'):
            pattern = self.pattern()
        else:
            token = self.next()
            arguments = []
            while self.peek() not in (')', '∷', '↦', None):
                if self.peek() == '{':
                    self.skip_implicit()
                else:
                    arguments.append(self.pattern())
            pattern = self.named_pattern(token, arguments)
        if self.peek() == '∷':
            self.next()
            return ('first and rest', pattern, self.whole_pattern())
        return pattern

    def named_pattern(self, token, arguments):
        last = token.split('.')[-1]
        if not re.match(r'^[A-Za-z_]', token):
            raise self.fault(f'{token} is no pattern that is known here')
        if token in ('true', 'false'):
            return ('truth', token == 'true')
        if token == 'zero':
            return ('zero',)
        if token == 'suc':
            return ('successor', arguments[0])
        if last[0].isupper():
            return ('variant', last, arguments)
        if arguments:
            raise self.fault(f'{token} is no variant')
        return ('any', token)

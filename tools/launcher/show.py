"""`./gfscell show`: a script by the protocol's definitions, in a second and with nothing built. It prints what the program prints, and tells the cause of a bad
line; with a chart of its messages (--trace, --svg FILE), and pictures of chunks (--picture)."""
import sys
from collections import namedtuple

import command_line
from building import end_output, print_text, say
from causes import Causes
from chart import Charted, header, lanes_of, svg_of, text_of
from pictures import all_pictures, picture

USAGE = """Runs a script by the protocol's definitions, with nothing built

Usage: ./gfscell show FILE [--trace] [--picture] [--svg FILE] [OPTIONS]
       ./gfscell show -i [--trace] [--picture] [OPTIONS]

  --trace     a chart of the messages, with their numbers: put aside (#), lost (x), delivered again
  --picture   each chunk's order, replicas and regions, where a line `regions` asks for them, else at the end
  --svg FILE  writes the chart into FILE as a picture
  -i          takes lines from a terminal, and goes on behind a bad one

OPTIONS are those of `./gfscell sim --help` but for --names-heap. They may stand in the script's first comments too: # --clients 2 --chunk 64
"""
Wanted = namedtuple('Wanted', 'is_traced is_drawn is_talking svg rest')


def wanted_by(words):
    """The flags of `show`, and the words that `sim` takes."""
    flags, svg, rest = set(), None, []
    left = iter(words)
    for word in left:
        if word in ('--trace', '--picture', '-i'):
            flags.add(word)
        elif word == '--svg' or word.startswith('--svg='):
            svg = word[6:] if word.startswith('--svg=') else next(left, None)
            if not svg:
                raise command_line.Bad('--svg: a FILE is missing')
        else:
            rest.append(word)
    if '-i' in flags:
        rest = ['-', *rest]
    return Wanted('--trace' in flags, '--picture' in flags, '-i' in flags, svg, rest)


class Show:
    """A script that is shown on `out`, a stream of bytes."""

    def __init__(self, wanted, given, out, program=None):
        from cell import Cell
        servers, clients, settings = command_line.settings_of(given)
        self.wanted, self.out, self.rows = wanted, out, []
        self.cell = Cell(settings, servers, clients, None, program)
        self.lanes = lanes_of(self.cell)
        self.has_regions = False
        self.simulator = Charted(self.cell, self.answer, self.row)
        self.place = 0
        if wanted.is_traced:
            self.print(header(self.lanes))

    def print(self, text):
        self.out.write(text.encode('utf-8', 'surrogateescape') + b'\n')

    def answer(self, text):
        if not self.wanted.is_traced:
            self.print(text)

    def row(self, row):
        if self.wanted.svg:
            self.rows.append(row)
        if self.wanted.is_traced:
            self.print(text_of(self.lanes, row))

    def draw(self, line):
        words = line.split(b' ')
        if words[0] == b'regions':
            self.has_regions = True
            file, index, handle = self.simulator.chunk(*words[1:])
            for text in picture(self.cell, f'{words[1].decode("utf-8")}, chunk {index}', file, index, handle):
                self.print(text)

    def line(self, line):
        """One line; its fault, with the cause, or None."""
        from script import BadLine, NoEnd
        self.place += 1
        try:
            self.simulator.line(line)
            if self.wanted.is_drawn:
                self.draw(line)
        except BadLine:
            return f'line {self.place}: bad line: {Causes(self.simulator).of(line)}'
        except NoEnd:
            return f'line {self.place}: no end'
        finally:
            self.out.flush()
        return None

    def end(self):
        if self.wanted.is_drawn and not self.has_regions:
            for text in all_pictures(self.cell):
                self.print(text)
        self.out.flush()
        if self.wanted.svg:
            with open(self.wanted.svg, 'w', encoding='utf-8') as file:
                file.write(svg_of(self.lanes, self.rows))

    def script(self, text):
        for line in text.split(b'\n'):
            fault = self.line(line)
            if fault:
                return fault
        return None

    def talk(self, lines):
        """Lines of a terminal, one after another."""
        is_terminal = lines.isatty()
        while True:
            if is_terminal:
                print('gfscell> ', end='', file=sys.stderr, flush=True)
            line = lines.readline()
            if not line:
                return
            fault = self.line(line.removesuffix(b'\n'))
            if fault:
                say(fault)


def read(file):
    if file == '-':
        return sys.stdin.buffer.read()
    with open(file, 'rb') as script:
        return script.read()


def asked_by(rest):
    """FILE and the options on the line."""
    asked = command_line.parse(['sim', *rest])
    if 'names_heap' in asked.given:
        raise command_line.Bad('--names-heap: the definitions have no regions')
    return asked


def shown_text(wanted, given, text, out, program=None):
    """Shows a script, or the lines of a terminal; the fault that ends it, or None."""
    wrong = command_line.out_of_range(given)
    if wrong:
        return f'cannot start: {wrong}'
    shown = Show(wanted, given, out, program)
    fault = shown.talk(sys.stdin.buffer) if wanted.is_talking else shown.script(text)
    shown.end()
    return fault


def run(wanted, given, text, out):
    """The exit status, as the program has it."""
    try:
        fault = shown_text(wanted, given, text, out)
    except OSError:
        fault = 'cannot write'
        end_output()
    if fault:
        say(fault)
    return 1 if fault else 0


def show(words):
    from exploring import in_deep_stack
    if words[:1] in (['--help'], ['-h']):
        return print_text(USAGE)
    try:
        wanted = wanted_by(words)
        asked = asked_by(wanted.rest)
        text = b'' if wanted.is_talking else read(asked.file)
        given = command_line.options_in(text) | asked.given
    except command_line.Shown:
        return print_text(USAGE)
    except command_line.Bad as cause:
        say(f'bad command line: {cause}')
        return 2
    except OSError as cause:
        say(f'cannot read: {cause.strerror}')
        return 1
    return in_deep_stack(run, wanted, given, text, sys.stdout.buffer)

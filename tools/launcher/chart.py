"""A script that goes on with a chart of its messages: what was sent from node to node, put aside, lost, or delivered again."""
import time
from xml.sax.saxutils import escape

from building import SECONDS_BETWEEN_LINES, say
from script import MOST_ROUNDS, Simulator

LANE = 13
MARGIN = 9
# messages that each server sends at each moment, which would hide all others
USUAL = ('Report',)
NOTES = {'': '', 'held': ' put aside', 'lost': ' lost', 'again': ' again'}


class Charted(Simulator):
    """A simulator that keeps the rows of a chart: ('line', moment, text), ('answer', text), ('moment', moment) and ('message', number, sender, receiver,
    kind, note). `out` takes each answer and `row` each row, when it comes."""

    def __init__(self, cell, out, row):
        super().__init__(cell, lambda text: (row(('answer', text)), out(text)))
        self.row = row
        self.told = 0
        # how many messages a line `rebase` has dropped: the next one has the number 1
        self.dropped = 0
        self.delivered = set()
        deliver = cell.deliver

        def delivering(number, now):
            self.note(number, 'again' if number in self.delivered else '')
            self.delivered.add(number)
            return deliver(number, now)
        cell.deliver = delivering

    def note(self, number, note):
        message = self.cell.messages[number]
        if message.kind in USUAL and not note:
            return
        if self.clock != self.told:
            self.told = self.clock
            self.row(('moment', self.clock))
        self.row(('message', number - self.dropped, message.sender, message.receiver, message.kind, note))

    def line(self, text):
        if text and not text.startswith(b'#'):
            self.told = self.clock
            self.row(('line', self.clock, text.decode('utf-8', 'replace')))
        super().line(text)

    def collect(self):
        first = self.seen
        super().collect()
        aside, pending = set(self.aside), set(self.pending)
        for number in range(first, self.seen):
            if number in aside:
                self.note(number, 'held')
            elif number not in pending and self.cell.messages[number].kind not in USUAL:
                self.note(number, 'lost')

    def rounds_while(self, goes_on):
        """Tells of a line that goes on for long; the program ends one that has no end in some seconds."""
        told, begun = time.monotonic(), self.clock

        def going():
            nonlocal told
            if time.monotonic() > told + SECONDS_BETWEEN_LINES:
                told = time.monotonic()
                say(f'this line goes on: {(self.clock - begun) // 100:,} rounds so far, of {MOST_ROUNDS:,} at most')
            return goes_on()
        super().rounds_while(going)

    def line_rebase(self):
        super().line_rebase()
        self.dropped = len(self.cell.messages) - 1

    def line_cut(self, word):
        before = list(self.pending)
        super().line_cut(word)
        for number in before:
            if number not in self.pending:
                self.note(number, 'lost')


def lanes_of(cell):
    """The nodes from left to right."""
    names = cell.nodes()
    return [it for it in names if it[0] == 'c'] + ['master'] + [it for it in names if it[0] == 's']


# ---- as text

def header(lanes):
    return ' ' * MARGIN + ''.join(name.center(LANE) for name in lanes).rstrip()


def message_row(lanes, number, sender, receiver, kind, note):
    """One arrow between the lanes of two nodes."""
    first, last = lanes.index(sender), lanes.index(receiver)
    left, right = (place * LANE + LANE // 2 for place in (min(first, last), max(first, last)))
    row = [' '] * (LANE * len(lanes))
    for place in range(len(lanes)):
        row[place * LANE + LANE // 2] = '|'
    row[left + 1:right] = '-' * (right - left - 1)
    label = kind[:right - left - 3]
    at = left + 1 + (right - left - 1 - len(label)) // 2
    row[at:at + len(label)] = label
    if note not in ('held', 'lost'):
        row[right - 1 if first < last else left + 1] = '>' if first < last else '<'
    else:
        row[right - 1 if first < last else left + 1] = 'x' if note == 'lost' else '#'
    return f'{"#" + str(number):>{MARGIN - 1}} {"".join(row)}{NOTES[note]}'.rstrip()


def text_of(lanes, row):
    """A row as a line of text."""
    if row[0] == 'line':
        return f'{row[1]} ms  {row[2]}'
    if row[0] == 'moment':
        return f'{row[1]} ms'
    if row[0] == 'answer':
        return f'{"=>":>{MARGIN - 1}} {row[1]}'
    return message_row(lanes, *row[1:])


# ---- as a picture

WIDTH, HEIGHT, LEFT, LETTER = 130, 22, 90, 6.7
# the names of the nodes stand again after so many rows, above the next line of the script
ROWS_OF_A_PAGE = 40
COLORS = {'': '#333', 'held': '#b60', 'lost': '#c00', 'again': '#06c'}


def svg_text(x, y, text, more=''):
    """A text, with white round its letters where it stands on a lane; a character that XML hasn't is shown as another."""
    shown = ''.join(it if it.isprintable() else '\N{REPLACEMENT CHARACTER}' for it in text)
    return f'<text x="{x}" y="{y}" stroke="#fff" stroke-width="3" paint-order="stroke" {more}>{escape(shown)}</text>'


def svg_end(tip, top, note, to_left):
    """The sign at the end of a message that isn't delivered, and the word behind it."""
    sign = 'm-4 -4 l8 8 m0 -8 l-8 8' if note == 'lost' else 'm-2 -5 v10 m4 -10 v10'
    yield f'<path d="M{tip} {top} {sign}" stroke="{COLORS[note]}" stroke-width="1.5"/>'
    yield svg_text(tip + (-8 if to_left else 8), top + 4, NOTES[note].strip(), f'fill="{COLORS[note]}" text-anchor="{"end" if to_left else "start"}"')


def svg_message(lanes, top, number, sender, receiver, kind, note):
    start, end = (LEFT + lanes.index(name) * WIDTH + WIDTH // 2 for name in (sender, receiver))
    is_delivered = note in ('', 'again')
    # a message that isn't delivered ends on its way
    tip = end if is_delivered else start + (end - start) * 3 // 4
    color = COLORS[note]
    dashes = ' stroke-dasharray="5 3"' if note else ''
    yield f'<line x1="{start}" y1="{top}" x2="{tip}" y2="{top}" stroke="{color}"{dashes}/>'
    if is_delivered:
        yield f'<path d="M{tip} {top} l{7 if tip < start else -7} -4 v8 z" fill="{color}"/>'
    else:
        yield from svg_end(tip, top, note, tip < start)
    yield svg_text((start + tip) // 2, top - 4, kind + (NOTES[note] if is_delivered else ''), f'fill="{color}" text-anchor="middle"')
    yield svg_text(8, top + 4, f'#{number}', 'fill="#777"')


def svg_names(lanes, top):
    for place, name in enumerate(lanes):
        yield svg_text(LEFT + place * WIDTH + WIDTH // 2, top + 4, name, 'font-weight="bold" fill="#000" text-anchor="middle"')


def shortened(text, x, width):
    """A text that begins at x, as far as it has room."""
    letters = int((width - 8 - x) / LETTER)
    return text if len(text) <= letters else text[:letters - 1] + '\N{HORIZONTAL ELLIPSIS}'


def svg_row(lanes, top, width, row):
    if row[0] == 'message':
        yield from svg_message(lanes, top, *row[1:])
    elif row[0] == 'names':
        yield from svg_names(lanes, top)
    elif row[0] == 'moment':
        yield svg_text(8, top + 4, f'{row[1]} ms', 'fill="#555"')
    elif row[0] == 'line':
        yield svg_text(8, top + 4, shortened(f'{row[1]} ms  {row[2]}', 8, width), 'font-weight="bold" fill="#000"')
    else:
        yield svg_text(LEFT, top + 4, shortened(f'\N{RIGHTWARDS DOUBLE ARROW} {row[1]}', LEFT, width), 'font-weight="bold" fill="#060"')


def with_names(rows):
    """The rows with the names of the nodes above, between and below them."""
    yield ('names',)
    since = 0
    for row in rows:
        if since >= ROWS_OF_A_PAGE and row[0] == 'line':
            yield ('names',)
            since = 0
        yield row
        since += 1
    yield ('names',)


def svg_of(lanes, rows):
    """The rows as a picture."""
    rows = list(with_names(rows))
    height = HEIGHT * (len(rows) + 1)
    width = max(LEFT + WIDTH * len(lanes) + 20, 900)
    lines = [f'<svg xmlns="http://www.w3.org/2000/svg" width="{width}" height="{height}" font-family="monospace" font-size="11" fill="none" xml:space="preserve">',
             f'<rect width="{width}" height="{height}" fill="#fff"/>']
    for place in range(len(lanes)):
        middle = LEFT + place * WIDTH + WIDTH // 2
        lines.append(f'<line x1="{middle}" y1="{HEIGHT}" x2="{middle}" y2="{height - HEIGHT}" stroke="#ddd"/>')
    for place, row in enumerate(rows, 1):
        lines += svg_row(lanes, place * HEIGHT, width, row)
    return '\n'.join([*lines, '</svg>', ''])

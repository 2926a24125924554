"""Charts and orders on pages, compared with worked rows, and pictures of bytes below scripts.

    ```chart FILE      messages between the nodes that its first line names, from `|` to `|`: each goes from sender to receiver as an arrow, with its kind on it,
                       or in the line above; where `lost` stands at its end it has no receiver. The row sends all of them, in this order, and others between
    ```order FILE      a chunk's order: lines ` entry`, ` round` and ` place`, and ` regions`, as the row leaves the first chunk of `/f`

A picture of bytes has a line `place`, with the first byte's place, and in each further line a letter for each byte of a replica from there on, `0` for a zero. Behind
some line of the script above some server had it, or each server that the line names.
"""
import os
import re

import state
from cell import SETTINGS, Cell
from page_blocks import SCRIPT
from script import KINDS, Simulator
from worked_rows import ROOT, read_row

CHART = re.compile(r'^```(chart|order) ([^\n]*)\n(.*?)^```$', re.S | re.M)


PICTURE = re.compile(r'^    place +(\d+)[^\n]*\n((?:    [^\n]*\n)+)', re.M)


def cells_of(options, script, program):
    """The cell of a script, once more behind each of its lines."""
    options = dict(options)
    servers, clients = options.pop('servers', 3), options.pop('clients', 1)
    settings = {name: default for name, _, _, default in SETTINGS} | options
    if 'block' not in options:
        settings['block'] = min(settings['chunk'] & -settings['chunk'], 65536)
    cell = Cell(settings, servers, clients, None, program)
    simulator = Simulator(cell, lambda text: None)
    for line in script.split(b'\n'):
        simulator.line(line)
        yield cell


def run_row(path, program):
    """The cell that a row leaves."""
    options, script, _ = read_row(os.path.join(ROOT, path))
    *_, cell = cells_of({'clients': 2, 'chunk': 64, 'block': 16} | options, script, program)
    return cell


# ---- charts

def lanes_of(lines):
    """The column of each lane, with the nodes that stand there. A client stands for each."""
    columns = [place for place, letter in enumerate(max(lines[1:], key=lambda line: line.count('|'))) if letter == '|']
    names = [set(re.findall(r'client|master|s\d', name)) for name in re.split(r' {2,}', lines[0].strip())]
    if len(names) != len(columns):
        raise ValueError(f'{len(names)} nodes and {len(columns)} lanes')
    return list(zip(columns, names))


def kind_in(text):
    """The first word that begins with a capital, which is a kind of message."""
    found = re.search(r'[A-Z]\w*', text)
    return found[0] if found else ''


def arrows(lanes, above, line):
    """The messages of a line: sender, receiver and kind. One that is lost has no receiver."""
    stands = [(column, names) for column, names in lanes if line[column:column + 1] == '|']
    for (left, at_left), (right, at_right) in zip(stands, stands[1:]):
        text = line[left + 1:right]
        if '--' not in text:
            continue
        sender, receiver = (at_right, at_left) if '<' in text else (at_left, at_right)
        yield sender, None if 'lost' in text else receiver, kind_in(text.replace('lost', '')) or kind_in(above[left + 1:].split('|')[0])


def messages_in(chart):
    lines = chart.split('\n')
    lanes = lanes_of(lines)
    return [message for above, line in zip(lines, lines[1:]) for message in arrows(lanes, above, line)]


def is_one_of(node, names):
    return node in names or (node[0] == 'c' and 'client' in names)


def other_messages(chart, cell):
    """What of a chart the row doesn't send."""
    sent = iter(cell.messages[1:])
    messages = messages_in(chart)
    for place, (sender, receiver, kind) in enumerate(messages, 1):
        if kind not in KINDS:
            yield f'message {place} has no kind: {kind}'
        elif not any(it.kind == kind and is_one_of(it.sender, sender) and (receiver is None or is_one_of(it.receiver, receiver)) for it in sent):
            yield f'the row does not send message {place}, {kind}, behind those before it'
            return
    if len(messages) < 4:
        yield f'{len(messages)} messages'


# ---- orders

def other_order(drawn, cell):
    """What of an order isn't that of the row's first chunk."""
    handle = cell.chunk(cell.file(b'/f'), 0)
    entries = state.entries(state.orders(cell.world)[handle])
    regions = ', '.join(f'{first}-{end} {"" if is_determined else "un"}determined' for first, end, is_determined in cell.regions(cell.file(b'/f'), 0))
    wanted = {
        'place': [str(it.offset) for it in entries] + [str(entries[-1].offset + len(entries[-1].content))],
        'entry': [f'{place} {"" if it.is_settled else "not "}settled' for place, it in enumerate(entries, 1)], 'round': [str(it.round) for it in entries],
        'regions': [regions]}
    for name, parts in wanted.items():
        found = re.search(rf'^ {name} +([^\n]*)$', drawn, re.M)
        if not found or re.split(r' {2,}', found[1].strip()) != parts:
            yield f'{name}: {found[1] if found else "none"}, and {"  ".join(parts)} is wanted'


# ---- pictures of bytes

def replicas_seen(words, script, program):
    """What each server's replicas were behind the lines of a script."""
    options = {name[2:].replace('-', '_'): int(value) for name, value in zip(words[::2], words[1::2])}
    seen = {}
    for cell in cells_of(options, script.encode(), program):
        for place, server in enumerate(state.servers(cell.world), 1):
            seen.setdefault(f's{place}', set()).update(bytes(replica.bytes[:replica.count]) for replica in state.replicas(server).values())
    return seen


def servers_in(label, seen):
    """The servers that a line names."""
    ends = re.match(r's(\d+) to s(\d+)', label)
    return [f's{place}' for place in range(int(ends[1]), int(ends[2]) + 1)] if ends else [name for name in seen if re.search(rf'\b{name}\b', label)]


def other_bytes(page, program):
    """Lines of pictures that show what no replica was."""
    for script in SCRIPT.finditer(page):
        pictures = PICTURE.findall(page[script.end():].split('```')[0])
        seen = replicas_seen(script[1].split(), script[2], program) if pictures else {}
        for first, lines in pictures:
            for label, drawn in re.findall(r'^    ([^|\n]*?) *\|([^\n]*)$', lines, re.M):
                wanted = drawn.replace('|', '').replace('0', '\0').encode()
                had = [name for name, held in seen.items() if any(it[int(first):] == wanted for it in held)]
                named = servers_in(label, seen)
                if label != 'regions' and not (set(named) <= set(had) if named else had):
                    yield f'the line of a picture shows what no replica was: {label} |{drawn}'


def faults(page, program):
    """The charts, orders and pictures of a page that aren't what their rows and scripts come to."""
    yield from other_bytes(page, program)
    for kind, path, text in CHART.findall(page):
        try:
            cell = run_row(path, program)
            yield from (f'{kind} of {path}: {fault}' for fault in (other_messages if kind == 'chart' else other_order)(text, cell))
        except (OSError, ValueError) as cause:
            yield f'{kind} of {path}: {cause}'

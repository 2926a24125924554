"""Blocks of code on pages: each is compared with a file of the gate, or with what it prints.

    ```gfs OPTIONS     a script; `pages` runs it, and compares what it prints with the block ```text behind it
    ```live FILE       a script for threads, as a test of that file runs it
    ```rust FILE       lines of that file, in one piece; its imports may be some of the file's. From the file's first line on it is the whole file
    ```text FILE       likewise, as of crates.txt, or of what a program has to print
    ```text            what stands before it prints: a script, or a line `./gfscell show ..` (`tools/launcher/test`)
    ```chart FILE      messages that a worked row sends (`page_charts.py`)
    ```order FILE      the order of a chunk that a worked row leaves (likewise)
"""
import os
import re
import textwrap

ROOT = os.path.dirname(os.path.dirname(os.path.dirname(os.path.abspath(__file__))))
BLOCK = re.compile(r'^```([^\n]*)\n(.*?)^```$', re.S | re.M)
SCRIPT = re.compile(r'^```gfs ?([^\n]*)\n(.*?)^```\n\n[^\n]*\n\n```text\n(.*?)^```$', re.S | re.M)
SHOWN = re.compile(r'^    \./gfscell show examples/\w+\.gfs[^\n]*\n\nprints\n\n```text\n(.*?)^```$', re.S | re.M)
IMPORT = re.compile(r'^(ghost use|use) ([^;]*?)(?:\{([^}]*)\})?;$', re.M)


def lines_of(path):
    """The lines of a file of the repository, or none where there is no such file."""
    try:
        with open(os.path.join(ROOT, path), encoding='utf-8') as file:
            return file.read().split('\n')
    except (FileNotFoundError, IsADirectoryError):
        return []


def holds(lines, cut):
    """Whether these lines stand among the others in one piece, all of them indented by as much or not at all."""
    first = next(line for line in cut if line)
    for place in range(len(lines) - len(cut) + 1):
        if lines[place + cut.index(first)].endswith(first):
            piece = '\n'.join(lines[place:place + len(cut)])
            if textwrap.dedent(piece).rstrip() == textwrap.dedent('\n'.join(cut)).rstrip():
                return True
    return False


def imports(text):
    """What a file brings in, name by name."""
    return {(word, path + name.strip()) for word, path, names in IMPORT.findall(text) for name in (names.split(',') if names else [''])}


def head_and_body(block):
    """The lines of a block up to its last import, and those behind."""
    lines = block.rstrip('\n').split('\n')
    ends = [place for place, line in enumerate(lines) if line.startswith(('#![', 'use ', 'ghost use '))]
    if not ends or any(line and not line.startswith(('#![', 'use ', 'ghost use ', '//!')) for line in lines[:ends[-1]]):
        return [], lines
    body = lines[ends[-1] + 1:]
    while body and not body[0]:
        body.pop(0)
    return lines[:ends[-1] + 1], body


def is_of_file(path, block):
    """Whether a block is the text of a file of the gate, or lines of it."""
    text = '\n'.join(lines_of(path))
    if not path.startswith('crates') or block.split('\n')[0] == text.split('\n')[0]:
        return bool(text) and block == text
    head, body = head_and_body(block)
    root = lines_of(os.path.join(os.path.dirname(path), 'lib.rt'))
    attributes = {line for line in head if line.startswith('#![')}
    return imports('\n'.join(head)) <= imports(text) and attributes <= {*text.split('\n'), *root} and bool(body) and holds(text.split('\n'), body)


def is_in_test(path, block):
    """Whether a script stands as a text in a file of tests."""
    return block.replace('\n', '\\n') in '\n'.join(lines_of(path))


def faults(page):
    """The blocks of a page that nothing is compared with, or that differ."""
    compared = {found.span(3) for found in SCRIPT.finditer(page)} | {found.span(1) for found in SHOWN.finditer(page)}
    scripts = {found.start() for found in SCRIPT.finditer(page)}
    for found in BLOCK.finditer(page):
        language, _, rest = found[1].partition(' ')
        is_well = {
            'gfs': lambda: found.start() in scripts, 'chart': lambda: bool(rest), 'order': lambda: bool(rest),
            'text': lambda: is_of_file(rest, found[2]) if rest else found.span(2) in compared,
            'rust': lambda: is_of_file(rest, found[2]), 'live': lambda: is_in_test(rest, found[2])}.get(language, lambda: False)
        if not is_well():
            yield f'this block is not that of a file of the gate, or nothing is compared with it\n```{found[1]}\n{found[2]}```'


def kinds(answer):
    """The kind of each byte that an answer `regions` tells."""
    ranges = re.findall(r'(\d+)-(\d+) (d|u)', answer)
    return ''.join(kind * (int(end) - int(start)) for start, end, kind in ranges)


def other_pictures(page):
    """Pictures below a script whose row `regions` isn't what the script prints: `place` has the first byte's place, and each letter is a byte."""
    for script in SCRIPT.finditer(page):
        below = page[script.end():].split('```')[0]
        printed = [kinds(line) for line in script[3].split('\n') if line.startswith('regions ')]
        for place, drawn in re.findall(r'^    place +(\d+) [^\n]*\n(?:    [^\n]*\n)*?    regions +(\S+)$', below, re.M):
            letters = drawn.replace('|', '')
            if not any(line[int(place):].startswith(letters) for line in printed):
                yield f'this picture is not what the script above it prints: regions {drawn}'

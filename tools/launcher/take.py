"""`./gfscell take CRATE.. FOLDER`: copies crates with all that they stand on into another repository of the kit, and adds their lines to its crates.txt.

Wrong bodies (`must-fail`) are left out: this repository's gate sees them refused. Nothing is written where a crate of the same name has another text there."""
import os
import re
import shutil

from building import CRATES, TOP, say
from command_line import near, text_of

LEFT_OUT = ('out', 'must-fail')
HANDLES = (('Threads', r'\buse std::thread::[^;]*\bThreads\b'), ('Wait', r'\buse std::sync::[^;]*\bWait\b'))


class Refused(Exception):
    """Nothing is taken; with the cause."""


def rows_in(path):
    """The lines of a crates.txt, by the names of their crates."""
    if not os.path.exists(path):
        return {}
    lines = [line.rstrip() for line in text_of(path).splitlines()]
    return {line.split(':')[0].split()[0]: line for line in lines if ':' in line and not line.startswith('#')}


def with_all_below(names, rows):
    """The names of these crates and of all that they stand on, in the order of the lines."""
    found, left = set(), list(names)
    while left:
        name = left.pop()
        if name not in rows:
            raise Refused(f'no crate {name}{near(name, rows)}')
        if name not in found:
            found.add(name)
            left += [it for it in rows[name].split(':')[1].split() if it in rows]
    return [name for name in rows if name in found]


def files_of(folder):
    """The bytes of a crate's files, but for what isn't taken, by their places."""
    found = {}
    for place, folders, files in os.walk(folder):
        if place == folder:
            folders[:] = [it for it in folders if it not in LEFT_OUT]
        for name in files:
            path = os.path.join(place, name)
            with open(path, 'rb') as file:
                found[os.path.relpath(path, folder)] = file.read()
    return found


def handles_of(names):
    """The handles that these crates use."""
    texts = [data.decode() for name in names for path, data in files_of(os.path.join(CRATES, name)).items() if path.endswith('.rt')]
    return [word for word, form in HANDLES if any(re.search(form, text) for text in texts)]


def is_other(name, to, rows, there):
    """Whether a crate of that name stands there with another text, or its line with other libraries."""
    folder = os.path.join(to, 'crates', name)
    if name in there and there[name].split() != rows[name].split():
        return True
    return os.path.exists(folder) and files_of(folder) != files_of(os.path.join(CRATES, name))


def copy_crate(name, folder):
    """The folder stands once all of it was copied."""
    part = f'{folder}.{os.getpid()}'
    try:
        shutil.copytree(os.path.join(CRATES, name), part, ignore=lambda place, _: LEFT_OUT if os.path.dirname(place) == CRATES else ())
        os.rename(part, folder)
    finally:
        shutil.rmtree(part, ignore_errors=True)


def copy(names, to, rows, there):
    for name in names:
        folder = os.path.join(to, 'crates', name)
        if not os.path.exists(folder):
            copy_crate(name, folder)
    lines = [rows[name] for name in names if name not in there]
    if lines:
        path = os.path.join(to, 'crates.txt')
        before = text_of(path).rstrip('\n') + '\n\n' if os.path.exists(path) else ''
        with open(path, 'w', encoding='utf-8') as file:
            file.write(before + '# From gfscell\n' + ''.join(line + '\n' for line in lines))


def tell(taken, stood, to, handles):
    print(f'{len(taken)} crates taken{": " + " ".join(taken) if taken else ""}')
    if stood:
        print(f'{len(stood)} crates stood there in the same text: {" ".join(stood)}')
    path = os.path.join(to, 'HANDLES')
    allowed = text_of(path) if os.path.exists(path) else ''
    lacking = [word for word in handles if word not in allowed]
    if lacking:
        print(f'HANDLES there has to allow {", ".join(lacking)}')


def taken(names, to):
    rows, there = rows_in(os.path.join(TOP, 'crates.txt')), rows_in(os.path.join(to, 'crates.txt'))
    if to in rows and not os.path.isdir(to):
        raise Refused(f'{to} is a crate; where is FOLDER?')
    names = with_all_below(names, rows)
    if os.path.realpath(to) == os.path.realpath(TOP):
        raise Refused(f'{to} is this repository')
    others = [name for name in names if is_other(name, to, rows, there)]
    if others:
        raise Refused(f'{to} has crates of other texts: {" ".join(others)}')
    stood = [name for name in names if name in there and os.path.exists(os.path.join(to, 'crates', name))]
    copy(names, to, rows, there)
    tell([name for name in names if name not in stood], stood, to, handles_of(names))


def take(words):
    """The exit status."""
    if len(words) < 2 or any(word.startswith('-') for word in words):
        say('bad command line: ./gfscell take CRATE.. FOLDER')
        return 2
    try:
        taken(words[:-1], words[-1])
    except Refused as cause:
        say(f'nothing is taken: {cause}')
        return 1
    except OSError as cause:
        say(f'not all is taken: {cause}')
        return 1
    return 0

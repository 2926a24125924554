"""Tests: what words of a command line ask for, and what is answered at once."""
import os
import pty
import re
import subprocess
import tempfile

import command_line
from building import TOP

TESTS = os.path.join(TOP, 'crates', 'tests_values', 'src', 'words.rt')
BAD = (2, b'', b'gfscell: bad command line\n')
# command lines beyond those of the tests
MORE_BAD = [
    '--', '-- sim a', 'sim --', 'sim a --servers --help', 'sim a --servers 3 --servers 3 --help', 'sim a --help=x', '-x', 'sim a -x', 'sim a --=3', '-', 'live',
    'sim a --servers -- 3', 'sim a --chunk 99999999999999999999999', 'sim a -- b', 'sim --names-heap 1 --names-heap 1 a', 'simm a',
    'sim a --servers\t3', '--version=1', '--help=', 'live a --progress=', 'serve a', 'serve -', 'serve --progress', 'serve --clients', 'live a --progress --progress', 'sim a --progress',
    'live --servers --progress a', 'sim a --keep 1', 'live a --keep', 'live --keep 1 --keep 1 a', 'serve --keep', 'serve --keep 1 --keep 1',
    'live a --history', 'live a --history h --history h', 'live --regions / a b', 'sim a --history h', 'serve --history h', 'serve --regions',
    'live a --regions f', 'live a --regions /f/', 'live a --regions /./f', 'live a --keep 7 --history h', 'live a --regions /f --keep 7',
    'serve --regions f', 'serve --keep 7 --regions /f', 'serve --regions /f --regions /f']
MORE_SHOWN = {'sim --servers x --help': 'sim', 'sim a b --help': None, 'live -h': 'live', 'serve -h': 'serve', 'serve --help a': 'serve', 'live a.live -hx': 'live', '-hV': '', 'sim --servers=9 -h': 'sim'}


def table(name):
    """The lines of a table of those tests."""
    text = re.search(rf'const {name}: &str =\s*"(.*?)";', command_line.text_of(TESTS), re.S)[1]
    return re.sub(r'\\\n *', '', text).replace('\\n', '\n').splitlines()


def settings_told(given):
    """The settings that aren't the defaults, each with its value, in the order of the tests."""
    servers, clients, others = command_line.settings_of(given)
    found = {'servers': servers, 'clients': clients, **others}
    for row in table('SETTINGS'):
        name, default = row.split(' ')
        value = found.get(name.replace('-', '_'), int(default))
        if value != int(default):
            yield name, value


def asked_by(line):
    """What the launcher makes of a command line, in the words of those tables; it passes over whether progress is told."""
    try:
        asked = command_line.parse(line.split(' ')[1:])
    except command_line.Bad:
        return 'nothing'
    except command_line.Shown as shown:
        return f'shows {shown}'
    numbers = [(name, asked.given[name.replace('-', '_')]) for name in ('names-heap', 'keep') if name.replace('-', '_') in asked.given]
    file = [] if asked.file is None else [asked.file]
    return ' '.join([asked.way, *file, *(f'{name} {value}' for name, value in [*numbers, *asked.words.items(), *settings_told(asked.given)])])


def is_wanted(found, wanted):
    if wanted.startswith('shows ') and found.startswith('shows '):
        return wanted.removeprefix('shows ') in found.removeprefix('shows ')
    return found == wanted.replace(' progress', '')


def tables():
    """How many command lines there are in the tables, and those that are taken otherwise."""
    count, faults = 0, []
    for name, least in (('LINES', 21), ('REFUSED', 44), ('SHOWN', 8)):
        rows = [row.partition(' -> ') for row in table(name)]
        if len(rows) != least:
            faults.append(f'{name} of {TESTS}: {len(rows)} command lines are read')
        for line, _, wanted in rows:
            count += 1
            if not is_wanted(asked_by(line), wanted or 'nothing'):
                faults.append(f'{line}: taken as {asked_by(line)}, and {wanted or "nothing"} is wanted')
    return count, faults


def shown_kinds():
    count, faults = 0, []
    for line, way in MORE_SHOWN.items():
        count += 1
        wanted = 'nothing' if way is None else 'shows ' + (command_line.subcommand_help(way) if way else command_line.program_help())
        if asked_by('gfscell ' + line) != wanted:
            faults.append(f'{line}: something else is asked for')
    for line in MORE_BAD:
        count += 1
        if asked_by('gfscell ' + line) != 'nothing':
            faults.append(f'{line}: not refused')
    return count, faults


def answer(program, words, folder):
    ran = subprocess.run([program, *words], cwd=folder, stdin=subprocess.DEVNULL, capture_output=True, check=False)
    return ran.returncode, ran.stdout, ran.stderr


def expected_text(name):
    with open(os.path.join(TOP, 'tools', 'launcher', 'expected', name), 'rb') as file:
        return file.read()


def at_once():
    """Words that need no program, with the status and the bytes that they get."""
    cannot = {name: (1, b'', f'gfscell: cannot {name}\n'.encode()) for name in ('read', 'start')}
    return [
        ([], BAD), (['help'], BAD), (['sim'], BAD), (['sim', 'a.gfs', '--servers', '3', '--servers', '3'], BAD), (['sim', 'a.gfs', '--chunk', 'x'], BAD),
        (['sim', b'\xff'], BAD), (['sim', 'a.gfs', '--servers', ''], BAD), (['live', 'a.live', '--names-heap', '1'], BAD), (['sim', 'a.gfs', '--keep', '1'], BAD),
        (['live', 'none', '--keep', '1', '--history', 'h'], BAD), (['live', 'none', '--regions', 'f'], BAD), (['live', 'none', '--regions', '/f', '--history', 'h'], cannot['read']),
        (['--help'], (0, expected_text('help'), b'')), (['-h'], (0, expected_text('help'), b'')), (['sim', '--help'], (0, expected_text('help_sim'), b'')),
        (['live', 'none', '-h'], (0, expected_text('help_live'), b'')), (['serve', '-h'], (0, expected_text('help_serve'), b'')), (['serve', 'a'], BAD),
        (['serve', '--regions', 'f'], BAD), (['serve', '--regions', '/f', '--keep', '7'], BAD),
        (['serve', '--servers', '0'], cannot['start']), (['--version'], (0, b'gfscell 0.1.0\n', b'')), (['-V'], (0, b'gfscell 0.1.0\n', b'')),
        (['sim', 'none'], cannot['read']), (['live', 'none', '--chunk', '63'], cannot['read']), (['sim', ''], cannot['read']), (['sim', '.'], cannot['read']),
        (['live', '.', '--chunk', '63'], cannot['read']), (['sim', '-', '--chunk', '63'], cannot['start']), (['sim', '--servers=0', '--', '-f'], cannot['start']),
        (['sim', '-f'], BAD), (['sim', '-', '--clients', '65'], cannot['start']), (['sim', '-', '--skew-ms', '5', '--lease-ms', '5'], cannot['start']),
        (['sim', '-', '--goal', '4294967298'], cannot['start']), (['sim', '-', '--block', '48'], cannot['start'])]


def other_words(program):
    """The words that a program, or the launcher, answers otherwise."""
    faults = []
    with tempfile.TemporaryDirectory() as folder:
        with open(os.path.join(folder, '-f'), 'wb') as file:
            file.write(b'c1 list /\n')
        for words, wanted in at_once():
            found = answer(os.path.abspath(program), words, folder)
            if found != wanted:
                faults.append(f'{words}: {found}, and {wanted} is wanted')
    return faults


def at_a_terminal():
    """The fault for `help` and for no words stands before the help, where one sits at a terminal."""
    for words in ([], ['help']):
        above, below = pty.openpty()
        ran = subprocess.run([os.path.join(TOP, 'gfscell'), *words], stdin=subprocess.DEVNULL, stdout=subprocess.PIPE, stderr=below, check=False)
        os.close(below)
        with open(above, 'rb') as terminal:
            told = terminal.read1(65536).replace(b'\r', b'')
        if (ran.returncode, ran.stdout) != BAD[:2] or not told.startswith(BAD[2] + b'\n' + expected_text('help')) or b'  show FILE' not in told:
            yield f'{words}, at a terminal: {ran}, {told}'


def faults():
    """How many things were tested, and what is wrong."""
    first, second, third = tables(), shown_kinds(), list(at_a_terminal())
    return first[0] + second[0] + len(at_once()) + 2, first[1] + second[1] + other_words(os.path.join(TOP, 'gfscell')) + third

"""Tests: what `show` prints of rows, examples and bad lines, and its charts and pictures."""
import glob
import io
import os
import re
import subprocess
import xml.dom.minidom

import command_line
from building import TOP
from causes import UNKNOWN, Causes
from chart import LETTER, svg_of
from example import answers_of, bytes_of, path_of
from show import Show, Wanted, asked_by, shown_text, wanted_by
from test_words import answer, expected_text
from worked_rows import WORKED, parts_of, rows_of

EXPECTED = os.path.join(TOP, 'tools', 'launcher', 'expected')
LAUNCHER = os.path.join(TOP, 'gfscell')
PLAIN = Wanted(False, False, False, None, [])
BEFORE = b'c1 create /f\nc1 open /f\nc1 append 1 a\n'
COMMAND = re.compile(r'^    ((?:\./gfscell|\.ci/|tools/|bench/)[^\n]*)', re.M)
SHOWN = re.compile(r'^    \./gfscell show examples/(\w+)\.gfs([^\n]*)\n\nprints\n\n```text\n(.*?)```', re.S | re.M)
CAUSES = {
    b'c1 fly /x': 'no call fly', b'c1 creat /x': 'no call creat; did you mean create?', b'c1 mkdir /a\r': 'it ends in a carriage return',
    b'c3 mkdir /a': 'c3: the cell has 2 clients (--clients)', b'cut s4': 's4: the cell has 3 servers (--servers)',
    b'hold forward s1': 'no kind of message forward; did you mean Forward?', b'c1  mkdir /a': 'two spaces between words', b'regions /g 0': '/g is no file',
    b'regions /f 1': '/f has no chunk 1', b'c1 append 1 hello world': 'append takes FD DATA, 2 words, and here are 3',
    b'C1 mkdir /a': 'no line begins with C1; did you mean c1?',
    b'c01 mkdir /a': 'c01: nodes count from 1, and a zero does not lead', b'fuse master 1 Old': 'T: Old is neither old, new, nor a number up to 255',
    b'rot c1 /f 0 0 1': 'c1: a server has to stand here', b'append 1 x': 'append is a call, and a client makes it: c1 append', b'c1': 'c1: a call is missing',
    b'c1 create /g 64k 3': 'CHUNK: 64k is no decimal number below 2^64', b'c1 create /g 64': 'create takes PATH CHUNK GOAL, 3 words, and here are 2'}


def shown(script, given, program, wanted=PLAIN):
    """What `show` prints of a script, and its fault without the cause."""
    out = io.BytesIO()
    fault = shown_text(wanted, given, script, out, program) or ''
    printed = out.getvalue().decode('utf-8', 'surrogateescape')
    return printed, re.sub(r'^((?:line \d+: )?(?:bad line|cannot start)).*', r'\1\n', fault, flags=re.S)


def rows(program):
    """Each row but those that hinder a step, which no script can."""
    count, faults = 0, []
    for path in sorted(glob.glob(os.path.join(WORKED, '*.row')) + glob.glob(os.path.join(WORKED, '*.rows'))):
        for row in rows_of(path):
            options, script, expected = parts_of(row)
            if re.search(rb'^# (stop|full) ', script, re.M):
                continue
            count += 1
            found = shown(script, {'clients': 2, 'chunk': 64, 'block': 16} | options, program)
            if ''.join(found) != ''.join(line + '\n' for line in expected):
                faults.append(f'{os.path.basename(path)}: show prints something else:\n{"".join(found)}')
    return count, faults


def examples(program):
    count, faults = 0, []
    for path in sorted(glob.glob(os.path.join(TOP, 'examples', '*.gfs'))):
        count += 1
        with open(path, 'rb') as script, open(path[:-4] + '.out', encoding='utf-8') as expected:
            text = script.read()
            if shown(text, command_line.options_in(text), program) != (expected.read(), ''):
                faults.append(f'{path}: show prints something else')
    return count, faults


def side_by_side(program):
    """`example` lists them, prints each beside its answers, and knows no other."""
    first = answer(LAUNCHER, ['example', 'pad'], '/')
    names = [line.split()[0] for line in answer(LAUNCHER, ['example'], '/')[1].decode().splitlines()]
    files = sorted(os.path.splitext(name)[0] for name in os.listdir(os.path.join(TOP, 'examples')) if name.endswith(('.gfs', '.live')))
    faults = [] if names == files else [f'example lists {names}']
    if first[0] or b'c1 append 1 e*13' + b' ' * 50 + b'c1 at 64\n' not in first[1] or b'prints what examples/pad.out has' not in first[1]:
        faults.append(f'example pad: {first}')
    if answer(LAUNCHER, ['example', 'none'], '/')[0] != 2:
        faults.append('example none: no fault')
    for name in names:
        if name + '.gfs' in os.listdir(os.path.join(TOP, 'examples')):
            script, expected = (bytes_of(path_of(name, ending)) for ending in ('.gfs', '.out'))
            if ''.join(line + '\n' for _, printed in answers_of(script, program) for line in printed).encode() != expected:
                faults.append(f'example {name}: something else stands beside it')
    return 2 + len(names), faults


def talking(_program):
    """Lines of a terminal go on behind a bad one."""
    lines = b'c1 mkdir /a\nfly\n\nc2 list /\nc1 list /'
    ran = subprocess.run([LAUNCHER, 'show', '-i'], input=lines, capture_output=True, check=False)
    said = [line.split(b': ', 1)[1] for line in ran.stderr.splitlines()]
    wanted = [b'line 2: bad line: no line begins with fly', b'line 4: bad line: c2: the cell has 1 client (--clients)']
    is_well = (ran.returncode, ran.stdout, said) == (0, b'c1 done\nc1 names 2 .gone/ a/\n', wanted)
    return 1, [] if is_well else [f'show -i: {ran}']


def as_a_user(_program):
    """The words of `show`, and of others, that only the whole command has."""
    shows, faults = [['show', 'examples/first.gfs'], ['show', 'examples/pad.gfs', '--clients', '1'], ['show', 'none'], ['show', 'examples/pad.gfs', '--chunk', '63'],
                     ['show', 'examples/pad.gfs', '--names-heap', '9'], ['show', '-i', '--clients=2'], ['show', '--help'],
                     ['prove', '--help'], ['soak', '-h'], ['prove', 'all']], []
    said = [(0, ''), (1, 'line 6: bad line: c2: the cell has 1 client (--clients)'), (1, 'cannot read: No such file or directory'),
            (1, 'cannot start: --chunk: 64 to 67108864, a multiple of 16'), (2, 'bad command line: --names-heap: the definitions have no regions'), (0, ''), (0, ''),
            (0, ''), (0, ''), (2, 'bad command line: ./gfscell prove takes no word')]
    for words, (status, fault) in zip(shows, said):
        found = answer(LAUNCHER, words, TOP)
        if (found[0], found[2].decode()) != (status, f'gfscell: {fault}\n' if fault else ''):
            faults.append(f'{words}: {found}')
    return len(shows), faults


def bad_lines():
    """The lines that the program refuses."""
    with open(os.path.join(WORKED, 'bad_lines.txt'), encoding='utf-8') as file:
        for line in file.read().splitlines():
            if not line.startswith('#'):
                parts = re.split(r'[{}]', line)
                codes = [bytes.fromhex(part.split('*')[0]) * int(part.split('*')[1]) if '*' in part else bytes.fromhex(part) for part in parts[1::2]]
                yield b''.join(part.encode() + code for part, code in zip(parts[::2], codes + [b''])).split(b'\n')[0]


def causes(program):
    """Each bad line is refused, changes nothing, and has a cause."""
    faults, shows = [], Show(PLAIN, {'clients': 2, 'chunk': 64, 'block': 16, 'log_bytes': 4096}, io.BytesIO(), program)
    for line in BEFORE.split(b'\n'):
        shows.line(line)
    world = shows.cell.world
    lines = [*bad_lines(), *CAUSES]
    for line in lines:
        fault = shows.line(line)
        cause = Causes(shows.simulator).of(line)
        if fault is None or UNKNOWN in fault or shows.cell.world is not world or cause != CAUSES.get(line, cause):
            faults.append(f'{line[:80]}: {fault}')
    shows.line(b'start c1 append 1 b')
    shows.line(b'cut master')
    shows.simulator.line(b'start c2 list /')
    if 'last call is open' not in (shows.line(b'c2 list /') or ''):
        faults.append('a second call of a client has another fault')
    if len(lines) < 150:
        faults.append(f'bad_lines.txt has {len(lines)} lines')
    return len(lines) + 1, faults


def drawn(name, program, flags=('--trace', '--picture')):
    """The chart and the pictures of an example."""
    with open(os.path.join(TOP, 'examples', name + '.gfs'), 'rb') as file:
        text = file.read()
    return shown(text, command_line.options_in(text), program, PLAIN._replace(is_traced='--trace' in flags, is_drawn='--picture' in flags))[0]


def pages(program):
    """What pages show of `show` is what it prints."""
    count, faults = 0, []
    for page in glob.glob(os.path.join(TOP, 'docs', '*.md')) + [os.path.join(TOP, 'README.md')]:
        for name, flags, text in SHOWN.findall(command_line.text_of(page)):
            count += 1
            if drawn(name, program, flags.split()) != text:
                faults.append(f'{page}: show examples/{name}.gfs{flags} prints something else')
    return count, faults if count else ['no page has a block of show']


def wrong_command(line):
    """What is wrong with a line of a page that runs something: what runs, words that it doesn't take, or a file that isn't there; else None."""
    command, *words = re.split(' {2,}', line)[0].split()
    if not os.path.exists(os.path.join(TOP, command)):
        return f'{command} is not there'
    if command != './gfscell' or words[0] in ('prove', 'soak', 'take'):
        return None
    try:
        asked = asked_by(wanted_by(words[1:]).rest) if words[0] == 'show' else command_line.parse(words)
        file = asked.file
    except command_line.Bad as cause:
        return str(cause)
    return None if file is None or os.path.exists(os.path.join(TOP, file)) else f'{file} is not there'


def commands(_program):
    """What pages tell a reader to run can be run."""
    pages = [os.path.join(TOP, name) for name in ('README.md', os.path.join('bench', 'README.md'))] + glob.glob(os.path.join(TOP, 'docs', '*.md'))
    lines = [(page, line) for page in pages for line in COMMAND.findall(command_line.text_of(page))]
    wrong = [(page, line, wrong_command(line)) for page, line in lines]
    return len(lines), [f'{page}: {line}: {cause}' for page, line, cause in wrong if cause] if len(lines) > 9 else ['pages have hardly a command']


EXPECTED_TEXTS = {
    'help': lambda program: command_line.program_help(), 'help_sim': lambda program: command_line.subcommand_help('sim'),
    'help_live': lambda program: command_line.subcommand_help('live'), 'help_serve': lambda program: command_line.subcommand_help('serve'),
    'lost_forward': lambda program: drawn('lost_forward', program),
    'rotten_block': lambda program: drawn('rotten_block', program), 'cut_primary': lambda program: drawn('cut_primary', program)}


def charts(program):
    other = [name for name, text in EXPECTED_TEXTS.items() if text(program).encode() != expected_text(name)]
    return len(EXPECTED_TEXTS), [f'tools/launcher/expected/{name} has another text' for name in other]


def svg(program):
    """A picture has a text for each row and the names of the nodes at both ends, is XML whatever the script's letters are, and cuts no text off at its edge."""
    shows = Show(PLAIN._replace(svg='-'), {'chunk': 64}, io.BytesIO(), program)
    for line in (b'c1 create /<&\x01|hold Named c1|start c1 open /<&\x01|free|cut s1|twice Ask master|c1 append 1 <&|join s1|c1 write 1 0 ' + b'a' * 200 + b'|c1 read 1 0 200').split(b'|'):
        shows.line(line)
    notes = {row[5] for row in shows.rows if row[0] == 'message'}
    drawn_chart = xml.dom.minidom.parseString(svg_of(shows.lanes, shows.rows)).documentElement
    texts = drawn_chart.getElementsByTagName('text')
    told = [text.firstChild.data for text in texts]
    is_whole = len(texts) > len(shows.rows) and notes == {'', 'held', 'lost', 'again'} and told[:5] == told[-5:] == shows.lanes
    edge = int(drawn_chart.getAttribute('width'))
    cut = [words for text, words in zip(texts, told) if not text.getAttribute('text-anchor') and int(text.getAttribute('x')) + LETTER * len(words) > edge]
    is_short = not cut and any(words.endswith('\N{HORIZONTAL ELLIPSIS}') for words in told)
    return 1, [] if is_whole and is_short else [f'a chart as a picture: {len(texts)} texts of {len(shows.rows)} rows, {notes}, {cut}']


def rebased(program):
    """Behind a line `rebase` a chart's messages are counted from 1."""
    shows = Show(PLAIN._replace(svg='-'), {'chunk': 64}, io.BytesIO(), program)
    numbers = []
    for line in (b'c1 mkdir /a', b'rebase', b'c1 mkdir /b'):
        before = len(shows.rows)
        shows.line(line)
        numbers.append([row[1] for row in shows.rows[before:] if row[0] == 'message'])
    return 1, [] if numbers[0] and numbers[0] == numbers[2] and not numbers[1] else [f'messages behind a rebase: {numbers}']


def faults():
    """How many things were tested, and what is wrong."""
    from translate import Program
    program = Program()
    parts = [part(program) for part in (rows, examples, side_by_side, talking, as_a_user, causes, charts, svg, rebased, pages, commands)]
    return sum(count for count, _ in parts), [fault for _, part in parts for fault in part]


def write():
    """Writes what is expected of the help, of charts and of pictures."""
    from translate import Program
    program = Program()
    os.makedirs(EXPECTED, exist_ok=True)
    for name, text in EXPECTED_TEXTS.items():
        with open(os.path.join(EXPECTED, name), 'wb') as file:
            file.write(text(program).encode())
    return 0

"""`./gfscell example NAME`: an example with its own options. By the definitions its script and its answers stand side by side, and the answers are compared with the
file beside it; where a program is built, its answers are compared too. One for threads is run by the program alone, which is built where none stands."""
import os
import subprocess
import sys

import building
import command_line
from building import TOP, say

EXAMPLES = os.path.join(TOP, 'examples')
WIDTH = 64


def path_of(name, ending):
    return os.path.join(EXAMPLES, name + ending)


def bytes_of(path):
    with open(path, 'rb') as file:
        return file.read()


def names():
    return sorted(os.path.splitext(name)[0] for name in os.listdir(EXAMPLES) if name.endswith(('.gfs', '.live')))


def about(name):
    """The first comment of an example that isn't its options."""
    path = path_of(name, '.gfs') if os.path.exists(path_of(name, '.gfs')) else path_of(name, '.live')
    lines = [line[2:] for line in bytes_of(path).decode().split('\n') if line.startswith('# ') and not line.startswith('# --')]
    return lines[0].split('. ')[0].rstrip('.') if lines else ''


def words_of(script):
    """An example's options, as words of the command line."""
    return [word for name, value in command_line.options_in(script).items() for word in ('--' + name.replace('_', '-'), str(value))]


def answers_of(script, program=None):
    """Each line of a script with what it prints, by the definitions."""
    from cell import Cell
    from script import Simulator
    servers, clients, settings = command_line.settings_of(command_line.options_in(script))
    printed = []
    simulator = Simulator(Cell(settings, servers, clients, None, program), printed.append)
    for line in script.split(b'\n'):
        simulator.line(line)
        yield line, printed[:]
        printed.clear()


def side_by_side(rows):
    """The script on the left, and on the right what each line prints."""
    for line, printed in rows:
        text = line.decode()
        if text.startswith('#') or not printed:
            print(text)
        for place, answer in enumerate(printed):
            print(f'{text if place == 0 else "":<{WIDTH}}  {answer}')


def built_program():
    """The program that stands, and how it was built; none is built for a script of `sim`."""
    if building.proved_stands():
        return building.PROVED, 'the proved program'
    return (building.UNPROVED, 'the program, built unproved,') if building.unproved_stands() else (None, None)


def told(who, printed, expected, name):
    """Says whether that was printed; 1 where it wasn't."""
    is_same = printed == expected
    print(f'{who} prints {"what" if is_same else "something else than"} examples/{name}.out has')
    return 0 if is_same else 1


def compared(name):
    script, expected = bytes_of(path_of(name, '.gfs')), bytes_of(path_of(name, '.out'))
    words = words_of(script)
    rows = list(answers_of(script))
    side_by_side(rows)
    print('----')
    by_definitions = ''.join(answer + '\n' for _, printed in rows for answer in printed)
    wrong = told('by the definitions it', by_definitions.encode(), expected, name)
    program, who = built_program()
    line = ' '.join(['./gfscell sim', f'examples/{name}.gfs', *words])
    if program is None:
        print(f'no program is built; {line} builds and runs it')
        return wrong
    ran = subprocess.run([program, 'sim', path_of(name, '.gfs'), *words], stdout=subprocess.PIPE, check=False)
    return told(who, ran.stdout, expected, name) or wrong


def example(words, run_program):
    """The exit status."""
    from exploring import in_deep_stack
    if not words:
        for name in names():
            print(f'{name:<16}  {about(name)}')
        return 0
    name = os.path.splitext(os.path.basename(words[0]))[0]
    if len(words) > 1 or name not in names():
        say(f'no example {" ".join(words)}; ./gfscell example lists them')
        return 2
    if os.path.exists(path_of(name, '.gfs')):
        return in_deep_stack(compared, name)
    live = path_of(name, '.live')
    print(f'./gfscell live examples/{name}.live {" ".join(words_of(bytes_of(live)))}', flush=True)
    sys.stdout.flush()
    return run_program(['live', live, *words_of(bytes_of(live))])

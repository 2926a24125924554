"""What `./gfscell` does: looks at the words first, answers what needs no program, and else runs the program, which it builds where none stands."""
import os
import signal
import sys

sys.dont_write_bytecode = True
HERE = os.path.dirname(os.path.abspath(__file__))
sys.path[:0] = [HERE, os.path.join(os.path.dirname(HERE), 'model')]
import building  # noqa: E402
import command_line  # noqa: E402
from building import print_text, say  # noqa: E402

# behind the program's own words, on a terminal alone
USAGE = """
./gfscell also takes:
  show FILE [--trace] [--picture] [--svg FILE] [options]
                      runs a script by the definitions, with nothing built; -i takes lines from a terminal
  example [NAME]      runs an example, and compares what it prints
  prove               proves the program, and builds it
  soak [--minutes M]  random scripts and lists of events
  take CRATE.. FOLDER copies crates with all that they stand on into another repository
  --explain           with sim and live: below a fault stands its cause"""


def is_in_range(asked):
    return command_line.out_of_range(asked.given) is None


def fault_of(asked):
    """What the program says before it makes a cell, or None. It looks at FILE's opening first, and `live` at all lines before the settings."""
    if asked.way == 'serve':
        return None if is_in_range(asked) else 'cannot start'
    if asked.file != '-' and not os.access(asked.file, os.R_OK):
        return 'cannot read'
    if asked.way == 'sim' and not is_in_range(asked):
        return 'cannot start' if asked.file == '-' or not os.path.isdir(asked.file) else None
    if asked.file != '-' and os.path.isdir(asked.file):
        return 'cannot read'
    return None


def become(program, words):
    """This process goes on as the program, with signals as a shell gives them."""
    for name in ('SIGPIPE', 'SIGXFSZ'):
        signal.signal(getattr(signal, name), signal.SIG_DFL)
    os.execv(program, [program, *words])


def tell_own(before=''):
    """To one who sits at a terminal, what the launcher takes too."""
    if sys.stderr is not None and sys.stderr.isatty():
        print(before + USAGE, file=sys.stderr)


def told(fault, cause, is_explained, status=1):
    """Says a fault as the program does, and its cause below where that is asked for; the exit status."""
    say(fault)
    if is_explained and cause:
        say(f'  {cause}')
    return status


def run_program(words):
    """Answers the words or becomes the program. `--explain` is the launcher's own."""
    options = words[:words.index('--')] if '--' in words else words
    is_explained = '--explain' in options
    words = [word for word in options if word != '--explain'] + words[len(options):]
    try:
        asked = command_line.parse(words)
    except command_line.Shown as shown:
        status = print_text(str(shown))
        if str(shown) == command_line.program_help():
            tell_own()
        return status
    except command_line.Bad as cause:
        status = told('bad command line', cause, is_explained, 2)
        if words in ([], ['help']):
            tell_own('\n' + command_line.program_help())
        return status
    if is_explained and asked.way == 'serve':
        return told('bad command line', '--explain is of sim and live', True, 2)
    fault = fault_of(asked)
    if fault:
        return told(fault, command_line.out_of_range(asked.given) if fault == 'cannot start' else asked.file, is_explained)
    program, is_proved = building.program()
    if not is_proved:
        say(building.NOT_PROVED)
    if is_explained:
        from explain import run_explained
        return run_explained(program, words, asked)
    return become(program, words)


def prove(words):
    if words:
        say('bad command line: ./gfscell prove takes no word')
        return 2
    building.prove()
    return 0


def run_own(way, words):
    """The launcher's own words."""
    if way != 'show' and words[:1] in (['--help'], ['-h']):
        return print_text(USAGE.lstrip() + '\n')
    if way == 'prove':
        return prove(words)
    if way == 'show':
        from show import show
        return show(words)
    if way == 'example':
        from example import example
        return example(words, run_program)
    if way == 'take':
        from take import take
        return take(words)
    from soak import soak
    return soak(words)


def main(words):
    for end in (signal.SIGTERM, signal.SIGHUP):
        if signal.getsignal(end) == signal.SIG_DFL:
            # what this run began ends with it
            signal.signal(end, lambda number, _: sys.exit(128 + number))
    try:
        if words and words[0] in ('prove', 'show', 'example', 'soak', 'take'):
            return run_own(words[0], words[1:])
        return run_program(words)
    except building.CannotBuild as cause:
        say(str(cause))
        return building.CANNOT_BUILD
    except OSError as cause:
        say(f'cannot build: {cause}')
        return building.CANNOT_BUILD
    except KeyboardInterrupt:
        # a script may go on in a thread of its own
        os._exit(128 + signal.SIGINT)


if __name__ == '__main__':
    sys.exit(main(sys.argv[1:]))

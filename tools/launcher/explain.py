"""`./gfscell sim FILE --explain`, and so `live`: the program's words stay as they are, and below a fault stands its cause: of the words, and of `sim` of the settings
and of a bad line, by the definitions."""
import contextlib
import io
import os
import re
import subprocess
import sys
import threading

from building import say
from causes import UNKNOWN
from show import Wanted, shown_text

SILENT = Wanted(False, False, False, None, [])
BAD_LINE = re.compile(rb'^gfscell: line (\d+): bad line$', re.M)


def cause_in(script, given, number):
    """Why the line of this number, at which a script ends, is bad, by the definitions."""
    from exploring import in_deep_stack
    found = []
    in_deep_stack(lambda: found.append(shown_text(SILENT, given, script, io.BytesIO()) or ''))
    told = re.match(r'line (\d+): bad line: (.*)', found[0] if found else '', re.S)
    return told[2] if told and int(told[1]) == number else UNKNOWN


def script_of(asked, kept):
    """The script, if it can be read once more."""
    if asked.file == '-':
        return b''.join(kept)
    if not os.path.isfile(asked.file):
        return None
    with open(asked.file, 'rb') as file:
        return file.read()


def hand_on(pipe, kept):
    """Gives the program standard input as it comes, and keeps it."""
    with contextlib.suppress(OSError, ValueError), pipe:
        while part := os.read(0, 65536):
            kept.append(part)
            pipe.write(part)
            pipe.flush()


def run_told(program, words, is_handed):
    """Runs the program, whose words on standard error are told as they come; its status, these words, and what was handed on."""
    kept, said = [], []
    with subprocess.Popen([program, *words], stdin=subprocess.PIPE if is_handed else None, stderr=subprocess.PIPE, close_fds=False) as ran:
        if is_handed:
            threading.Thread(target=hand_on, args=(ran.stdin, kept), daemon=True).start()
        for line in ran.stderr:
            said.append(line)
            if sys.stderr is not None:
                sys.stderr.buffer.write(line)
                sys.stderr.flush()
        status = ran.wait()
    return status, b''.join(said), kept


def run_explained(program, words, asked):
    """Runs the program, and tells the cause of a bad line; the exit status. The definitions have no region for the names, so none is told where that may be it."""
    status, said, kept = run_told(program, words, asked.way == 'sim' and asked.file == '-')
    bad = BAD_LINE.search(said)
    if asked.way == 'sim' and bad and 'names_heap' not in asked.given:
        script = script_of(asked, kept)
        if script is not None:
            say(f'  {cause_in(script, asked.given, int(bad[1]))}')
    return 128 - status if status < 0 else status

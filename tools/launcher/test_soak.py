"""Tests: what `soak` counts and says, over campaigns that try nothing."""
import contextlib
import io
import os
import subprocess
import tempfile

import soak

SCRIPTS = "import sys\nsys.exit('a script prints otherwise' if {is_wrong} else 0)\n"
LISTS = "print('15 s: 3 lists, 3600 events, 9 checkpoints, 1 second rounds, 2 snapshots, 4 clones, 5 pads, 6 rots, 7 restarts, 8 stops; answers: 9 At')\n"
COUNTS = {'lists': 3, 'events': 3600, 'restarts': 7, 'stops': 8, 'rots': 6, 'clones': 4, 'snapshots': 2}
WORDS = {(): 5, ('--minutes', '7'): 7, ('--minutes=7',): 7, ('--minutes', '0'): None, ('--minutes',): None, ('7',): None, ('--minutes', 'x'): None}


def soaked(folder, is_wrong):
    """The status, the last line, and how often the lists were run, of some tenths of a second."""
    for name, text in (('scripts', SCRIPTS.format(is_wrong=is_wrong)), ('explore', LISTS)):
        with open(os.path.join(folder, name), 'w', encoding='utf-8') as file:
            file.write(text)
    out, before = io.StringIO(), soak.CAMPAIGNS
    soak.CAMPAIGNS = folder
    try:
        with contextlib.redirect_stdout(out), contextlib.redirect_stderr(io.StringIO()):
            ran = soak.Soak('program', 0.01, 7)
            status = ran.run()
    finally:
        soak.CAMPAIGNS = before
    return status, out.getvalue().splitlines(), ran.counts


def is_ended():
    """Whether a campaign that goes on ends with its run."""
    ran = soak.Soak('program', 1, 7)
    ran.works['lists'] = subprocess.Popen(['sleep', '60'])
    ran.end_works([])
    return ran.works['lists'].wait(10) != 0 and not ran.goes_on()


def faults():
    """How many things were tested, and what is wrong."""
    wrong = [f'soak {words}: {soak.minutes_of(list(words))}' for words, minutes in WORDS.items() if soak.minutes_of(list(words)) != minutes]
    with tempfile.TemporaryDirectory() as folder:
        status, lines, counts = soaked(folder, False)
        runs = counts.get('lists', 0) // 3
        is_counted = runs and counts.get('scripts', 0) >= 40 and all(counts.get(name) == runs * count for name, count in COUNTS.items())
        if status or not is_counted or len(lines) != 1 or not lines[0].startswith('soak from seed 7: ') or not lines[0].endswith('; nothing wrong'):
            wrong.append(f'a soak: {status}, {lines}, {counts}')
        status, lines, _ = soaked(folder, True)
        if status != 1 or 'a script prints otherwise' not in lines or not lines[-1].endswith('; 1 wrong'):
            wrong.append(f'a soak that finds something: {status}, {lines}')
    if not is_ended():
        wrong.append('a campaign goes on')
    return len(WORDS) + 3, wrong

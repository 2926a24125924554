"""`./gfscell soak --minutes M`: random scripts by the program and by the definitions, which must print the same, and random lists of events on the definitions, with
what must hold tested after each event; side by side, with other seeds each time. The last line counts."""
import os
import re
import subprocess
import sys
import tempfile
import threading
import time

import building
from building import TOP, say
from command_line import number

CAMPAIGNS = os.path.join(TOP, 'tools', 'campaigns')
SCRIPTS = 40
EVENTS = 1200


class Soak:
    """Both campaigns, until a moment."""

    def __init__(self, program, minutes, seed):
        self.program, self.end, self.seed = program, time.monotonic() + 60 * minutes, seed
        self.counts = {}
        self.wrong = []
        self.works = {}

    def ran(self, name, words, output):
        """What a campaign wrote, or None where it found something wrong."""
        command = [sys.executable, '-B', os.path.join(CAMPAIGNS, name), *words]
        with open(output, 'w+', encoding='utf-8') as file:
            self.works[name] = subprocess.Popen(command, stdin=subprocess.DEVNULL, stdout=file, stderr=file)
            status = self.works[name].wait()
            file.seek(0)
            text = file.read()
        if status:
            self.wrong.append(f'tools/campaigns/{name} {" ".join(words)}\n{text}')
            return None
        return text

    def add(self, name, count):
        self.counts[name] = self.counts.get(name, 0) + count

    def goes_on(self):
        return time.monotonic() < self.end and not self.wrong

    def scripts(self, folder):
        seed = self.seed
        while self.goes_on():
            text = self.ran('scripts', ['--program', self.program, '--seeds', str(seed), str(seed + SCRIPTS)], os.path.join(folder, 'scripts'))
            if text is not None:
                self.add('scripts', SCRIPTS)
            seed += SCRIPTS

    def lists(self, folder):
        seed = self.seed
        while self.goes_on():
            minutes = max(0.05, min(0.25, (self.end - time.monotonic()) / 60))
            words = ['--faults', '--seeds', str(seed), str(seed + 1_000_000), '--events', str(EVENTS), '--minutes', f'{minutes:.2f}']
            text = self.ran('explore', words, os.path.join(folder, 'lists'))
            for count, name in re.findall(r'(\d+) ([a-z]+)', (text or '').split(';')[0].partition(': ')[2]):
                self.add(name, int(count))
            seed += 1_000_000

    def tell(self):
        while self.goes_on():
            time.sleep(min(building.SECONDS_BETWEEN_LINES, max(0.0, self.end - time.monotonic())))
            say(f'{self.shown()}, {building.duration(max(0, self.end - time.monotonic()))} left')

    def shown(self):
        wanted = ('scripts', 'lists', 'events', 'restarts', 'stops', 'rots', 'clones', 'snapshots')
        return ', '.join(f'{self.counts.get(name, 0)} {name}' for name in wanted)

    def end_works(self, works):
        """Campaigns that still go on end with this run."""
        self.end = 0
        for work in self.works.values():
            work.kill()
        for work in works:
            work.join(1)

    def run(self):
        with tempfile.TemporaryDirectory() as folder:
            works = [threading.Thread(target=work, args=arguments, daemon=True) for work, arguments in ((self.scripts, (folder,)), (self.lists, (folder,)), (self.tell, ()))]
            try:
                for work in works:
                    work.start()
                for work in works:
                    work.join()
            finally:
                self.end_works(works[:2])
        for text in self.wrong:
            print(text)
        print(f'soak from seed {self.seed}: {self.shown()}; {len(self.wrong) or "nothing"} wrong', flush=True)
        return 1 if self.wrong else 0


def minutes_of(words):
    """The minutes that are asked for; 5 where none are; None where the words are wrong."""
    if not words:
        return 5
    flag, _, value = words[0].partition('=') if len(words) == 1 else (words[0], '', words[1])
    return number(value) or None if flag == '--minutes' and len(words) < 3 else None


def soak(words):
    """The exit status."""
    minutes = minutes_of(words)
    if minutes is None:
        say('bad command line: ./gfscell soak [--minutes M]')
        return 2
    program, is_proved = building.program()
    if not is_proved:
        say(building.NOT_PROVED)
    return Soak(program, minutes, int(time.time()) % 1_000_000_000 * 1_000).run()

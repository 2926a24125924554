"""The program, proved or not: whether one stands that was built from this text, and building it with lines that say how far that is.

`crates/gfscell/out/gfscell` is the proved one, and `out/unproved/gfscell` the other. Beside each stands a mark that is as old as the beginning of the run that
built it. A source that is newer makes it stale: for the proved program code, definitions and proofs, for the other the code alone, for both `crates.txt`."""
import contextlib
import fcntl
import os
import re
import shutil
import signal
import subprocess
import sys
import threading
import time

TOP = os.path.dirname(os.path.dirname(os.path.dirname(os.path.abspath(__file__))))
CRATES = os.path.join(TOP, 'crates')
WORKSHOP = os.path.join(TOP, 'tools', 'workshop')
OUT = os.path.join(CRATES, 'gfscell', 'out')
PROVED, PROVED_MARK = os.path.join(OUT, 'gfscell'), os.path.join(OUT, 'gfscell.built')
UNPROVED, UNPROVED_MARK = os.path.join(OUT, 'unproved', 'gfscell'), os.path.join(OUT, 'unproved', 'built')
CANNOT_BUILD = 70
SECONDS_OF_A_BUILD = 190
# (tests have less)
SECONDS_BETWEEN_LINES = float(os.environ.get('GFSCELL_SECONDS', 10))
NOT_PROVED = 'this run is not proved; ./gfscell prove proves the program and builds it so, in an hour or more'


class CannotBuild(Exception):
    """The program can't be built; with the cause."""


def say(text):
    if sys.stderr is None:
        # it was closed before this run began
        return
    print(f'gfscell: {text}', file=sys.stderr, flush=True)


def end_output():
    """Nothing more is written to a standard output that can't be written."""
    os.dup2(os.open(os.devnull, os.O_WRONLY), sys.stdout.fileno())


def print_text(text):
    """Prints a text as the program does; the exit status."""
    try:
        sys.stdout.buffer.write(text.encode())
        sys.stdout.buffer.flush()
        return 0
    except OSError:
        end_output()
        say('cannot write')
        return 1


def duration(seconds):
    minutes, seconds = divmod(int(seconds), 60)
    hours, minutes = divmod(minutes, 60)
    parts = [(hours, f'{hours} h'), (minutes, f'{minutes} min'), (not hours, f'{seconds} s')]
    return ' '.join(text for is_told, text in parts if is_told)


# ---- what stands

def is_newer_below(folder, moment):
    """Whether something there is newer, but for what an editor leaves: a name that begins with a dot, and maybe a link to nothing."""
    for entry in os.scandir(folder):
        if entry.name.startswith('.'):
            continue
        if entry.stat().st_mtime_ns > moment or (entry.is_dir() and is_newer_below(entry.path, moment)):
            return True
    return False


def is_stale(moment, parts):
    """Whether crates.txt, or one of these folders of a crate or what lies there, is newer."""
    folders = [os.path.join(CRATES, name, part) for name in os.listdir(CRATES) for part in parts]
    files = [os.path.join(TOP, 'crates.txt'), *filter(os.path.isdir, folders)]
    return any(os.stat(it).st_mtime_ns > moment for it in files) or any(is_newer_below(it, moment) for it in files[1:])


def stands(program, mark, parts):
    if not os.access(program, os.X_OK) or not os.path.exists(mark):
        return False
    return not is_stale(os.stat(mark).st_mtime_ns, parts)


def proved_stands():
    return stands(PROVED, PROVED_MARK, ('src', 'specs', 'proofs'))


def unproved_stands():
    return stands(UNPROVED, UNPROVED_MARK, ('src',))


# ---- building

@contextlib.contextmanager
def locked(name, waits=True):
    """One run at a time builds, or proves, and others wait for it. Whether this one may: one that doesn't wait is told that it may not."""
    os.makedirs(os.path.dirname(UNPROVED), exist_ok=True)
    begun, is_held = time.monotonic(), False
    with open(os.path.join(OUT, 'unproved', name), 'w', encoding='utf-8') as file:
        while not is_held:
            try:
                fcntl.flock(file, fcntl.LOCK_EX | fcntl.LOCK_NB)
                is_held = True
            except BlockingIOError:
                if not waits:
                    break
                say(f'another run builds the program; this one waits for it, {duration(time.monotonic() - begun)} so far')
                time.sleep(SECONDS_BETWEEN_LINES)
        yield is_held


@contextlib.contextmanager
def marked(mark):
    """A mark as old as the beginning of the work, which stands once that has succeeded."""
    os.makedirs(os.path.dirname(mark), exist_ok=True)
    begun = f'{mark}.{os.getpid()}'
    with open(begun, 'w', encoding='utf-8'):
        pass
    try:
        yield
        os.replace(begun, mark)
    finally:
        with contextlib.suppress(FileNotFoundError):
            os.remove(begun)


class Work:
    """A command that goes on, whose last line is kept, and whose lines a log has. However this run ends, the command ends too."""

    def __init__(self, words, log=None, read=None):
        self.log, self.read = log or os.path.join(OUT, 'unproved', 'log'), read
        self.last, self.begun = '', time.monotonic()
        with open(self.log, 'w', encoding='utf-8'):
            pass
        with open(self.log, 'a', encoding='utf-8') as errors:
            self.ran = subprocess.Popen(words, cwd=TOP, stdin=subprocess.DEVNULL, stdout=subprocess.PIPE, stderr=errors, text=True, errors='replace', start_new_session=True)
        self.reader = threading.Thread(target=self.read_all, daemon=True)
        self.reader.start()

    def read_all(self):
        with open(self.log, 'a', encoding='utf-8') as log:
            for line in self.ran.stdout:
                self.last = line.strip() or self.last
                print(line, end='', file=log, flush=True)
                if self.read:
                    self.read(line)

    def seconds(self):
        return time.monotonic() - self.begun

    def ended(self, told):
        """Waits for the end, with a line now and then, and returns the status."""
        try:
            while True:
                try:
                    status = self.ran.wait(SECONDS_BETWEEN_LINES)
                    self.reader.join(SECONDS_BETWEEN_LINES)
                    return status
                except subprocess.TimeoutExpired:
                    told(self)
        finally:
            for end in (signal.SIGINT, signal.SIGKILL):
                if self.ran.poll() is None:
                    os.killpg(self.ran.pid, end)
                    with contextlib.suppress(subprocess.TimeoutExpired):
                        self.ran.wait(10)

    def errors(self):
        with open(self.log, encoding='utf-8', errors='replace') as file:
            return ''.join(file.readlines()[-20:])


def need_kit():
    if shutil.which('rt') is None:
        raise CannotBuild("the kit's command rt is not on this machine. ./gfscell show FILE runs a script without it, by the definitions")


def tell_of_look(work):
    say(f'looking whether the program was proved on this machine from just this text: {duration(work.seconds())} so far, of a minute or two')


def take_kept():
    """The proved program, where `rt ci` built it from just this text in any checkout of this machine."""
    with marked(PROVED_MARK):
        work = Work([sys.executable, '-B', os.path.join(WORKSHOP, 'kept'), '--program', 'gfscell'], os.devnull)
        if work.ended(tell_of_look):
            raise CannotBuild('no checkout has proved this text')


def is_kept():
    try:
        take_kept()
    except CannotBuild:
        return False
    return os.access(PROVED, os.X_OK)


def tell_of_build(work):
    say(f'building the program, {work.last or "step 1 of 3"}: {duration(work.seconds())} so far, of some {duration(SECONDS_OF_A_BUILD)}')


def build_unproved():
    need_kit()
    say(f'the program is built, unproved, for some {duration(SECONDS_OF_A_BUILD)}; until its code changes later runs begin at once')
    made = f'{UNPROVED}.{os.getpid()}'
    try:
        with marked(UNPROVED_MARK):
            work = Work([sys.executable, '-B', os.path.join(WORKSHOP, 'unproved_program'), made])
            if work.ended(tell_of_build) or not os.path.exists(made):
                raise CannotBuild(f'cannot build\n{work.errors()}'.rstrip())
            os.replace(made, UNPROVED)
    finally:
        with contextlib.suppress(FileNotFoundError):
            os.remove(made)


def program():
    """The program to run, and whether it is proved; it is built where none stands."""
    if proved_stands():
        return PROVED, True
    if not unproved_stands():
        with locked('building'):
            with locked('proving', waits=False) as is_free:
                if is_free and is_kept():
                    return PROVED, True
            if not unproved_stands():
                build_unproved()
    return UNPROVED, False


# ---- proving

# what `rt ci` says of a crate, also of one that it proved here before
IS_PROVED = re.compile(r'rt: (\w+) (?:proved$|is kept:)')


def with_below(name):
    """A crate with the crates of this repository that it stands on."""
    with open(os.path.join(TOP, 'crates.txt'), encoding='utf-8') as lines:
        rows = dict(line.rstrip('\n').split(':') for line in lines if ':' in line and not line.startswith('#'))
    found, left = set(), [name]
    while left:
        it = left.pop()
        if it in rows and it not in found:
            found.add(it)
            left += rows[it].split()
    return found


class Told:
    """Says how many crates are proved, when that has changed, and each minute."""

    def __init__(self, crates):
        self.crates, self.proved = crates, set()
        self.count, self.moment = None, 0

    def read(self, line):
        found = IS_PROVED.match(line)
        if found and found[1] in self.crates:
            self.proved.add(found[1])

    def __call__(self, work):
        count = len(self.proved)
        if count != self.count or work.seconds() > self.moment + 60:
            self.count, self.moment = count, work.seconds()
            left = '; wrong bodies are tried, and the program is run' if count == len(self.crates) else ''
            say(f'crates proved: {count} of {len(self.crates)}{left}, {duration(work.seconds())} so far')


def prove_and_keep():
    """The kit's gate over the program and all that it stands on: what passes is kept on this machine, for `.ci/run` too."""
    log, told = os.path.join(OUT, 'prove.log'), Told(with_below('gfscell'))
    where = os.path.relpath(log, TOP)
    work = Work(['rt', 'ci', 'gfscell'], log, told.read)
    if work.ended(told):
        raise CannotBuild(f'cannot prove: {where} says why\n{work.errors()}'.rstrip())
    told(work)
    if not is_kept():
        raise CannotBuild(f'what was proved is not kept: a source has changed meanwhile, or the disk has no room ({where})')


def prove():
    """Proves and builds the program."""
    if proved_stands():
        say('the program stands, proved from this text')
        return
    need_kit()
    with locked('proving'):
        begun = time.monotonic()
        if not is_kept():
            say('proving the crates that the program stands on, which takes an hour or more; what is proved is kept, also if this ends early')
            prove_and_keep()
    say(f'the program is proved and built, in {duration(time.monotonic() - begun)}')

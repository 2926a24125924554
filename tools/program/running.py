"""Runs of a built program: what it is given, and what it prints and ends with."""
import concurrent.futures
import os
import re
import subprocess
import threading
from typing import NamedTuple

# In seconds: each test is over long before.
MOST = 600
# A script's fault, where it stands behind what is printed.
FAULT = re.compile(rb'^(?:line \d+: (?:bad line|no end)|cannot (?:start|read|write)|no memory)\n\Z', re.M)


class Ran(NamedTuple):
    status: int
    printed: bytes
    told: bytes


def ran_of(text):
    """The run of a script of which this is what it prints, with its fault behind where it has one."""
    fault = FAULT.search(text)
    return Ran(1, text[:fault.start()], b'gfscell: ' + fault[0]) if fault else Ran(0, text, b'')


class Program:
    def __init__(self, path):
        self.path = path

    def run(self, words, given=b''):
        """Runs it with these words, and these bytes as standard input."""
        ran = subprocess.run([self.path, *words], input=given, capture_output=True, check=False, timeout=MOST)
        return Ran(ran.returncode, ran.stdout, ran.stderr)

    def begin(self, words, given=subprocess.PIPE, printed=subprocess.PIPE):
        """Begins it, with pipes where nothing else is named."""
        return subprocess.Popen([self.path, *words], stdin=given, stdout=printed, stderr=subprocess.PIPE)


class Ended:
    """Ends a process that doesn't end by itself, so that who reads from it goes on."""

    def __init__(self, process, seconds=MOST):
        self.process, self.timer = process, threading.Timer(seconds, process.kill)

    def __enter__(self):
        self.timer.start()
        return self.process

    def __exit__(self, *_):
        self.timer.cancel()
        self.process.kill()
        self.process.wait()
        for pipe in (self.process.stdin, self.process.stdout, self.process.stderr):
            if pipe:
                try:
                    pipe.close()
                except BrokenPipeError:
                    pass


def words_of(settings):
    """The words of a command line that give these settings, as `lease_ms`."""
    return [word for name, value in settings.items() for word in ('--' + name.replace('_', '-'), str(value))]


def differs(what, found, wanted):
    """The fault where something else was found than is wanted."""
    return [] if found == wanted else [f'{what}: {found!r}, and {wanted!r} is wanted']


def faults_of(program, tests, lanes=1):
    """The faults of these tests, each with its name; so many run side by side."""
    def tried(test):
        name, run = test
        try:
            return [f'{name}: {fault}' for fault in run(program)]
        except (OSError, EOFError, subprocess.SubprocessError) as error:
            return [f'{name}: {error}']
    with concurrent.futures.ThreadPoolExecutor(lanes) as pool:
        return [fault for faults in pool.map(tried, tests) for fault in faults]

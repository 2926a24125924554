"""Tests: which program the launcher runs and when it builds one, over a workshop that builds nothing: each of its commands writes what the launcher looks at."""
import os
import shutil
import signal
import subprocess
import tempfile
import time

from building import NOT_PROVED, TOP

PROGRAM = '#!/bin/sh\necho "$0" | sed "s|.*/out/||"\necho "$@"\ncat\nexit 7\n'
BUILDS = '''import os, sys, time
top = os.path.dirname(os.path.dirname(os.path.dirname(os.path.abspath(__file__))))
made = sys.argv[1]
with open(os.path.join(top, 'builds'), 'a') as file:
    file.write('build\\n')
print('step 1 of 3, reading', flush=True)
time.sleep(0.7)
if os.path.exists(os.path.join(top, 'fails')):
    sys.exit('it fails')
shutil = __import__('shutil')
shutil.copy(os.path.join(top, 'program'), made)
'''
SUM = 'cat crates.txt crates/*/src/* crates/*/specs/* | cksum'
KEPT = f'''import os, shutil, subprocess, sys, time
top = os.path.dirname(os.path.dirname(os.path.dirname(os.path.abspath(__file__))))
if subprocess.run('{SUM} | cmp -s - kept', shell=True, cwd=top).returncode:
    sys.exit(1)
time.sleep(0.7 if os.path.exists(os.path.join(top, 'slow')) else 0)
shutil.copy(os.path.join(top, 'program'), os.path.join(top, 'crates', 'gfscell', 'out', 'gfscell'))
'''
# of the gate, on the text as it stands at its beginning
RT = f'''#!/bin/sh
[ "$*" = "ci gfscell" ] || exit 3
[ ! -e fails ] || {{ echo "rt: FAILED: low"; exit 1; }}
sum=$({SUM})
echo "rt: low is kept: an earlier run"; echo "fn low::f: proved"; sleep 0.5
echo "rt: high proved"; echo "rt: high: trying its must-fail edits (2)"; sleep 0.5
echo "rt: gfscell proved"; sleep 0.5
while [ -e held ]; do sleep 0.1; done
[ -e full ] || echo "$sum" >kept
'''
BUILT, LATER = 'the program is built, unproved', 'until its code changes later runs begin at once'
LOOKS = 'looking whether the program was proved'


def put(path, text, mode=0o644):
    os.makedirs(os.path.dirname(path), exist_ok=True)
    with open(path, 'w', encoding='utf-8') as file:
        file.write(text)
    os.chmod(path, mode)


class Workshop:
    """A folder as a checkout, with a workshop that builds nothing."""

    def __init__(self, top):
        self.top = top
        for name in ('launcher', 'model'):
            os.makedirs(os.path.join(top, 'tools'), exist_ok=True)
            os.symlink(os.path.join(TOP, 'tools', name), os.path.join(top, 'tools', name))
        os.makedirs(os.path.join(top, 'crates'))
        shutil.copytree(os.path.join(TOP, 'crates', 'command_line'), self.at('crates', 'command_line'), ignore=shutil.ignore_patterns('out'))
        shutil.copy(os.path.join(TOP, 'gfscell'), self.at('gfscell'))
        for name, text in (('kept', KEPT), ('unproved_program', BUILDS)):
            put(self.at('tools', 'workshop', name), text)
        for name in ('crates/gfscell/src/main.rt', 'crates/low/src/lib.rt', 'crates/low/specs/Lib.antt', 'crates/high/src/lib.rt', 'script.gfs'):
            put(self.at(name), '')
        put(self.at('crates.txt'), '# Values\nlow: bytes\nhigh: low\ngfscell: low high clap\n')
        put(self.at('program'), PROGRAM, 0o755)
        put(self.at('bin', 'rt'), RT, 0o755)

    def at(self, *names):
        return os.path.join(self.top, *names)

    def begun(self, *words):
        paths = {'PATH': self.at('bin') + ':' + os.environ['PATH'], 'GFSCELL_SECONDS': '0.2', 'SPECS': os.path.join(TOP, 'crates')}
        return subprocess.Popen([self.at('gfscell'), *words], cwd=self.top, env={**os.environ, **paths}, stdin=subprocess.PIPE, stdout=subprocess.PIPE,
                                stderr=subprocess.PIPE, text=True)

    def run(self, *words):
        """The status, what is printed, and the lines of standard error, but for those of a look for a proved program, which a busy machine makes long."""
        ran = self.begun(*words)
        out, errors = ran.communicate('typed\n')
        return ran.returncode, out, [line for line in errors.splitlines() if LOOKS not in line]

    def shell(self, command):
        """The status and what is printed."""
        ran = subprocess.run(['sh', '-c', command], cwd=self.top, input='typed\n', stdout=subprocess.PIPE, text=True, check=False)
        return ran.returncode, ran.stdout

    def builds(self):
        try:
            with open(self.at('builds'), encoding='utf-8') as file:
                return len(file.readlines())
        except FileNotFoundError:
            return 0

    def touch(self, name):
        time.sleep(0.02)
        put(self.at(name), f'changed at {time.monotonic_ns()}\n')

    def keep(self):
        """Another checkout has proved this text."""
        subprocess.run(f'{SUM} >kept', shell=True, cwd=self.top, check=True)


class Tests:
    """What differs is kept."""

    def __init__(self):
        self.count = 0
        self.faults = []

    def same(self, what, found, wanted):
        self.count += 1
        if found != wanted:
            self.faults.append(f'{what}: {found}, and {wanted} is wanted')

    def has(self, what, lines, *parts):
        """Each part stands in a line."""
        self.count += 1
        if not all(any(part in line for line in lines) for part in parts):
            self.faults.append(f'{what}: {lines}, and {parts} is wanted')


NOTE = [f'gfscell: {NOT_PROVED}']
UNPROVED, PROVED = (7, 'unproved/gfscell\nsim script.gfs\ntyped\n'), (7, 'gfscell\nsim script.gfs\ntyped\n')


def unproved(shop, tests):
    """The program is built once, and again where its code has changed."""
    first = shop.run('sim', 'script.gfs')
    tests.same('the first run', first[:2], UNPROVED)
    tests.has('the first run', first[2], BUILT, LATER, 'building the program, step 1 of 3, reading', NOT_PROVED)
    tests.same('the second run', shop.run('sim', 'script.gfs'), (*UNPROVED, NOTE))
    tests.same('the second run', shop.builds(), 1)
    tests.same('no standard error', shop.shell('./gfscell sim script.gfs 2>&-'), UNPROVED)
    shop.touch('crates/low/specs/Lib.antt')
    tests.same('a changed definition', (shop.run('sim', 'script.gfs'), shop.builds()), ((*UNPROVED, NOTE), 1))
    for name in ('crates/low/src/lib.rt', 'crates/low/src/new.rt', 'crates.txt'):
        before = shop.builds()
        shop.touch(name) if name != 'crates.txt' else os.utime(shop.at(name))
        shop.run('sim', 'script.gfs')
        tests.same(name, shop.builds(), before + 1)
    before = shop.builds()
    os.symlink('nothing', shop.at('crates/low/src/.#lib.rt'))
    os.utime(shop.at('crates/low/src'), (0, 0))
    tests.same("an editor's link to nothing", (shop.run('sim', 'script.gfs'), shop.builds()), ((*UNPROVED, NOTE), before))
    os.remove(shop.at('crates/low/src/.#lib.rt'))
    os.utime(shop.at('crates/low/src'), (0, 0))
    tests.same('no build for words', (shop.run('--version')[0], shop.run('sim', 'none')[0], shop.run()[0], shop.builds()), (0, 1, 2, 4))


def failing(shop, tests):
    """A build that fails leaves nothing, and one that is ended ends its workshop."""
    put(shop.at('fails'), '')
    shop.touch('crates/low/src/lib.rt')
    status, out, errors = shop.run('sim', 'script.gfs')
    tests.same('a build that fails', (status, out), (70, ''))
    tests.has('a build that fails', errors, 'cannot build', 'it fails')
    os.remove(shop.at('fails'))
    before = shop.builds()
    for end in (signal.SIGTERM, signal.SIGINT):
        ran = shop.begun('sim', 'script.gfs')
        while shop.builds() == before:
            time.sleep(0.02)
        before = shop.builds()
        ran.send_signal(end)
        tests.same('a build that is ended', (ran.communicate()[0], ran.returncode), ('', 128 + end))
    tests.same('what ended builds leave', sorted(os.listdir(shop.at('crates', 'gfscell', 'out', 'unproved'))), ['building', 'built', 'gfscell', 'log', 'proving'])
    both = [shop.begun('sim', 'script.gfs') for _ in range(2)]
    said = [ran.communicate('typed\n') for ran in both]
    tests.same('two runs at once', ([out for out, _ in said], shop.builds()), ([UNPROVED[1]] * 2, before + 1))
    tests.has('two runs at once', said[0][1].splitlines() + said[1][1].splitlines(), 'another run builds the program')


def proved(shop, tests):
    """The proved program is taken once it stands, and nothing more is said."""
    status, out, errors = shop.run('prove')
    tests.same('a proof', (status, out), (0, ''))
    tests.has('a proof', errors, 'crates proved: 1 of 3', 'crates proved: 2 of 3', 'crates proved: 3 of 3; wrong bodies are tried', 'the program is proved and built')
    tests.same('the proved program', shop.run('sim', 'script.gfs'), (*PROVED, []))
    tests.same('a second proof', shop.run('prove')[2], ['gfscell: the program stands, proved from this text'])
    shop.touch('crates/low/specs/Lib.antt')
    tests.same('a changed definition', shop.run('sim', 'script.gfs'), (*UNPROVED, NOTE))
    put(shop.at('held'), '')
    other = shop.begun('prove')
    # The proof has read the text once it tells of a crate.
    while 'crates proved: 1' not in other.stderr.readline():
        pass
    shop.touch('crates/low/src/lib.rt')
    tests.same('a run beside a proof', shop.run('sim', 'script.gfs')[:2], UNPROVED)
    os.remove(shop.at('held'))
    said = other.communicate()[1]
    tests.has('a proof of a text that has changed meanwhile', said.splitlines(), 'a source has changed meanwhile')
    tests.same('behind it', (other.returncode, shop.run('sim', 'script.gfs')), (70, (*UNPROVED, NOTE)))
    put(shop.at('full'), '')
    status, _, errors = shop.run('prove')
    tests.has('a full disk', errors, 'the disk has no room (crates/gfscell/out/prove.log)')
    tests.same('a full disk', status, 70)
    os.remove(shop.at('full'))
    put(shop.at('fails'), '')
    status, _, errors = shop.run('prove')
    tests.has('a proof that fails', errors, 'cannot prove: crates/gfscell/out/prove.log says why', 'rt: FAILED: low')
    tests.same('a proof that fails', status, 70)
    tests.same('behind a proof that fails', shop.run('sim', 'script.gfs'), (*UNPROVED, NOTE))
    os.remove(shop.at('fails'))
    shop.touch('crates/low/src/lib.rt')
    shop.keep()
    before = shop.builds()
    tests.same('a program of another checkout', (shop.run('sim', 'script.gfs'), shop.builds()), ((*PROVED, []), before))
    put(shop.at('slow'), '')
    shop.touch('crates/low/src/lib.rt')
    shop.keep()
    ran = shop.begun('sim', 'script.gfs')
    out, errors = ran.communicate('typed\n')
    tests.same('a look that takes long', ((ran.returncode, out), shop.builds()), (PROVED, before))
    tests.has('a look that takes long', errors.splitlines(), LOOKS)
    os.remove(shop.at('slow'))
    tests.same('words beyond', shop.run('prove', 'all')[0], 2)


def explained(shop, tests):
    """The causes that `--explain` tells, below what the program says."""
    put(shop.at('program'), '#!/bin/sh\necho printed\nline=2\n[ "$2" != - ] || { read typed; line=1; }\necho "gfscell: line $line: bad line" >&2\nexit 1\n', 0o755)
    put(shop.at('script.gfs'), 'c1 create /f\nc2 list /\n')
    shop.touch('crates/low/src/lib.rt')
    shop.keep()
    bad = ['gfscell: line 2: bad line']
    tests.same('a bad line', shop.run('sim', 'script.gfs'), (1, 'printed\n', bad))
    tests.same('its cause', shop.run('sim', '--explain', 'script.gfs'), (1, 'printed\n', bad + ['gfscell:   c2: the cell has 1 client (--clients)']))
    tests.same('its cause on a terminal', shop.run('sim', '-', '--explain'), (1, 'printed\n', ['gfscell: line 1: bad line', 'gfscell:   no line begins with typed']))
    tests.same('a script that is not read twice', shop.run('sim', '/dev/stdin', '--explain'), (1, 'printed\n', bad))
    tests.same('a region for the names', shop.run('sim', 'script.gfs', '--names-heap', '99999', '--explain'), (1, 'printed\n', bad))
    tests.same('a served cell', shop.run('serve', '--explain'), (2, '', ['gfscell: bad command line', 'gfscell:   --explain is of sim and live']))
    tests.same('a live script', shop.run('live', 'script.gfs', '--explain'), (1, 'printed\n', bad))
    words = ['gfscell: bad command line', 'gfscell:   no option --chunks; did you mean --chunk?']
    tests.same('wrong words', shop.run('sim', 'script.gfs', '--chunks', '3', '--explain'), (2, '', words))
    tests.same('a file of that name', shop.run('sim', '--', '--explain'), (1, '', ['gfscell: cannot read']))
    settings = ['gfscell: cannot start', 'gfscell:   --chunk: 64 to 67108864, a multiple of 16']
    tests.same('a setting', shop.run('sim', '-', '--chunk', '3', '--explain'), (1, '', settings))
    put(shop.at('program'), '#!/bin/sh\nkill -9 $$\n', 0o755)
    shop.touch('crates/low/src/lib.rt')
    shop.keep()
    tests.same('a signal', shop.run('sim', 'script.gfs', '--explain'), (137, '', []))


def by_link(shop, tests):
    os.symlink('gfscell', shop.at('link'))
    os.symlink(shop.at('link'), shop.at('bin', 'cell'))
    ran = subprocess.run([shop.at('bin', 'cell'), '--version'], cwd='/', capture_output=True, text=True, check=False)
    tests.same('the launcher by a link', (ran.returncode, ran.stdout), (0, 'gfscell 0.1.0\n'))


def faults():
    """How many things were tested, and what is wrong."""
    tests = Tests()
    with tempfile.TemporaryDirectory() as folder:
        shop = Workshop(os.path.realpath(folder))
        for part in (unproved, failing, proved, explained, by_link):
            part(shop, tests)
    return tests.count, tests.faults

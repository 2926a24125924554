"""Wrong definitions, statements and bodies that the prover must refuse, each in copies of the crates in a folder of its own. What earlier checks kept in out/ is taken,
so each is tried soon where libraries are built (`rt lib`, `tools/workshop/libraries`)."""
import concurrent.futures
import glob
import itertools
import os
import re
import shutil
import subprocess
import sys
import tempfile

from edits import DEFINITIONS
from paths import TOOLS, TOP

JOINED = 'protocol_joined'
PROTOCOL = 'protocol'


def libraries():
    """Each crate of the repository, with the libraries that its line names."""
    with open(os.path.join(TOP, 'crates.txt'), encoding='utf-8') as lines:
        rows = [line.split(':') for line in lines if ':' in line and not line.startswith('#')]
    return {row[0].split()[0]: row[1].split() for row in rows}


def below(names, crates):
    """These crates and what they stand on, lowest first."""
    found = {}

    def look_at(name):
        if name in crates and name not in found:
            for it in crates[name]:
                look_at(it)
            found[name] = True
    for name in names:
        look_at(name)
    return list(found)


def linked(source, target):
    """The same file once more, by a link where that can be."""
    try:
        os.link(source, target)
    except OSError:
        shutil.copy2(source, target)


def copy_crate(name, room, left_out, copy=linked):
    shutil.copytree(os.path.join(TOP, 'crates', name), os.path.join(room, 'crates', name), copy_function=copy, ignore=shutil.ignore_patterns(*left_out))


def run_rt(room, crates, folder, *words):
    """What `rt` printed in this folder of the room, which has these crates; and its exit status."""
    with open(os.path.join(room, 'crates.txt'), 'w', encoding='utf-8') as lines:
        lines.writelines('%s: %s\n' % (name, ' '.join(row)) for name, row in crates.items())
    shutil.copy(os.path.join(TOP, 'HANDLES'), room)
    subprocess.run(['git', 'init', '-q'], cwd=room, check=True)
    rt = [sys.executable, os.path.join(TOOLS, 'workshop', 'kit.py'), *words]
    ran = subprocess.run(rt, cwd=os.path.join(room, folder), stdout=subprocess.PIPE, stderr=subprocess.STDOUT, text=True, errors='replace', check=False)
    return ran.stdout, ran.returncode


def put_edits(edits, room, crate):
    folder = os.path.join(room, 'crates', crate, 'must-fail')
    os.makedirs(folder)
    for edit in edits:
        shutil.copy(edit.path, folder)


def count_of(lines):
    return sum(': refused, as it must be' in line for line in lines)


# ---------------------------------------------------------------- wrong statements of a crate's laws, and wrong bodies of its functions

def refused_statements(crate, edits, crates):
    """How many of these wrong statements or bodies the crate refuses, which is tried as the gate tries the edits of crates/*/must-fail."""
    with tempfile.TemporaryDirectory(prefix='wrong-statements-') as room:
        lower = below([crate], crates)
        for name in lower:
            copy_crate(name, room, ('must-fail', 'incremental') if name != crate else ('must-fail', 'out'))
        put_edits(edits, room, crate)
        printed, _ = run_rt(room, {name: crates[name] for name in lower}, '.', 'must-fail', crate)
    said = [line for line in printed.splitlines() if 'must-fail %s/' % crate in line]
    print('\n'.join(said) or '%s: not tried\n%s' % (crate, printed[-2000:]), flush=True)
    return count_of(said)


def by_statements(edits, _):
    crates = libraries()
    return sum([refused_statements(crate, list(its), crates) for crate, its in itertools.groupby(edits, lambda it: it.crate)])


# ---------------------------------------------------------------- wrong definitions under which a law is refused

def copy_part(crate, parts, folder):
    """Copies a crate's definitions, proofs and source into the joined crate; lists of modules are put one after the other."""
    top = os.path.join(TOP, 'crates', crate)
    for at, _, files in itertools.chain(*(os.walk(os.path.join(top, part)) for part in ('src', 'specs', 'proofs'))):
        to = os.path.join(folder, os.path.relpath(at, top))
        os.makedirs(to, exist_ok=True)
        for name in files:
            with open(os.path.join(at, name), encoding='utf-8') as source:
                text = re.sub(r'\bRattle\.(%s)\b' % '|'.join(parts), 'Rattle.' + JOINED, source.read())
            is_list = name in ('Lib.antt', 'lib.rt') and os.path.dirname(at) == top
            if name == 'lib.rt':
                text = ''.join(line for line in text.splitlines(True) if line.startswith('pub mod'))
            with open(os.path.join(to, name), 'a' if is_list else 'w', encoding='utf-8') as target:
                target.write(text)


def refused_joined(crate, edits, crates):
    """How many of these wrong definitions are refused. Definitions and laws stand in two crates, and the gate's own edits stay within one, so the two are joined."""
    parts = (DEFINITIONS[crate], crate)
    needed = sorted({name for part in parts for name in crates[part]} - set(parts))
    with tempfile.TemporaryDirectory(prefix='wrong-definitions-') as room:
        lower = below(needed, crates)
        for name in lower:
            copy_crate(name, room, ('must-fail',))
        folder = os.path.join(room, 'crates', JOINED)
        os.makedirs(os.path.join(folder, 'src'))
        with open(os.path.join(folder, 'src', 'lib.rt'), 'w', encoding='utf-8') as root:
            root.write('#![tactic(auto)]\n\n')
        for part in parts:
            copy_part(part, parts, folder)
        put_edits(edits, room, JOINED)
        printed, status = run_rt(room, {**{name: crates[name] for name in lower}, JOINED: needed}, '.', 'must-fail', JOINED)
    print(printed.rstrip('\n'), flush=True)
    count = count_of(printed.splitlines())
    return count if status == 0 or count < len(edits) else 0


def by_laws(edits, _):
    crates, rooms = libraries(), os.cpu_count() or 1
    rows = []
    for crate, its in itertools.groupby(edits, lambda it: it.crate):
        its = list(its)
        # at most as many rooms as processors for each crate, and as many at once
        rows += [(crate, its[k::rooms]) for k in range(min(rooms, len(its)))]
    with concurrent.futures.ThreadPoolExecutor(rooms) as pool:
        return sum(pool.map(lambda row: refused_joined(*row, crates), rows))


# ---------------------------------------------------------------- wrong definitions that a crate above must refuse

def put_branches(edit, folders):
    """Puts the new conditions into the proofs of these crates, which follow the definitions' branches."""
    pairs = edit.branches()
    for path in [it for folder in folders for it in glob.glob(os.path.join(folder, 'proofs', '**', '*.antt'), recursive=True)] if pairs else []:
        with open(path, encoding='utf-8') as source:
            text = changed = source.read()
        for old, new in pairs:
            changed = changed.replace(old, new)
        if changed != text:
            with open(path, 'w', encoding='utf-8') as target:
                target.write(changed)


def is_refused_above(edit, crates):
    """Whether the crate, or one below it, is refused over the wrong definition. `rt check` proves what stands on the definitions first, lowest first."""
    with tempfile.TemporaryDirectory(prefix='wrong-above-') as room:
        lower = below([edit.crate], crates)
        changed = [name for name in lower if PROTOCOL in below([name], crates)]
        for name in lower:
            if name in changed:
                copy_crate(name, room, ('must-fail', 'rlib', 'library.log'), shutil.copy2)
            else:
                # what doesn't stand on the definitions is as it was, and taken as it is built
                copy_crate(name, room, ('must-fail', 'incremental', 'library.log'))
        edit.make(os.path.join(room, 'crates'))
        put_branches(edit, [os.path.join(room, 'crates', name) for name in changed])
        jobs = os.environ.get('RT_JOBS', '2')
        printed, status = run_rt(room, {name: crates[name] for name in lower}, os.path.join('crates', edit.crate), 'check', '--jobs', jobs)
    refused = [line for line in printed.splitlines() if ': error: ' in line or ': not proved' in line]
    is_refused = status == 1 and bool(refused)
    print('%s: %s' % (edit.name, '\n  '.join(['refused, as it must be:', *refused[:4]]) if is_refused else 'NOT refused'), flush=True)
    return is_refused


def by_above(edits, _):
    crates = libraries()
    return sum([is_refused_above(edit, crates) for edit in edits])

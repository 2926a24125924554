"""Wrong bodies, each refused by a proof of the function whose contract rules it out, with what that calls in its crate, over the libraries that the gate has
just built. Edits of one crate that change different functions are made together, and one process proves these functions: of the functions that it calls a proof
knows the contracts alone, which no edit changes, so what is not proved of a function's own goals isn't proved where its edit is made alone either."""
import concurrent.futures
import os
import re
import signal
import sys

from edits import StaleEdit
from paths import TOOLS

sys.path.append(os.path.join(TOOLS, 'workshop'))
import kit  # noqa: E402

# A proof names something that the edit took away, which says nothing of the contract.
LACKING = re.compile(r'is not in scope|has no field|has no `|was not admitted')
HEAD = re.compile(r'^ *(?:pub(?:\([a-z]+\))? )?(?:const )?fn \w+', re.M)


def is_built(crate):
    return os.path.exists(os.path.join(crate.folder, 'out', 'rlib', f'{crate.name}.rlib', 'format'))


# ---------------------------------------------------------------- what is not proved

def place_of(text, line):
    """The name of the function in which this line of a text stands."""
    heads = [it for it in HEAD.finditer(text) if text.count('\n', 0, it.start()) < line]
    return heads[-1][0].split()[-1] if heads else ''


def noted(function, printed, texts):
    """The goals that notes name in the lines of this function, where its file is one of these texts."""
    for path, line, goal in re.findall(r'^note: (src/\S+?\.rt):(\d+):\d+: it is not proved .*?\(`([^`]+)`\)', printed, re.M):
        module = path.removeprefix('src/').removesuffix('.rt').replace('/', '::')
        its = f'{module}::{function.rpartition("::")[0]}' if module == 'lib' else function.rpartition('::')[0]
        if path in texts and its.startswith(module) and place_of(texts[path], int(line)) == function.rpartition('::')[2]:
            yield goal


def goals_unproved(crate, function, printed, texts):
    """The goals of this function, by the prover's names, of which it has no proof: its search finds none, or it refuses the answer that is written."""
    line = re.search(rf'^(?:fn|method) {re.escape(f"{crate}::{function}")}: (?:not proved|no proof).*', printed, re.M)
    if not line:
        return []
    searched = re.search(r'`search` did not prove ([^;]*)', line[0])
    folder = re.escape('proofs/' + function.replace('::', '/'))
    answered = re.findall(rf'^(?:\./)?{folder}/\w+\.antt:\d+:\d+: error: `([^`]+)`: (.*)', printed, re.M)
    goals = re.findall('`([^`]+)`', searched[1] if searched else '')
    return list(dict.fromkeys([*goals, *(goal for goal, said in answered if not LACKING.search(said)), *noted(function, printed, texts)]))


def unproved(edit, printed, texts):
    """By which goals of its functions the edit is refused, or nothing."""
    found = {it: goals_unproved(edit.crate, it, printed, texts) for it in edit.functions()}
    return '; '.join(f'{function} by {", ".join(goals)}' for function, goals in found.items() if goals)


# ---------------------------------------------------------------- edits of one crate, made together

def text_of(edit):
    with open(edit.path, encoding='utf8') as file:
        return file.read()


def changed_functions(edit, folder):
    """Where the functions that it changes begin, each as a file and a place."""
    found, path = set(), None
    for word, text in edit.lines():
        if word == 'file':
            path = text.strip()
        elif word == 'old':
            with open(os.path.join(folder, path), encoding='utf8') as file:
                before = file.read().partition(text)[0]
            found.add((path, max((it.start() for it in HEAD.finditer(before)), default=0)))
    return found


def is_of_bodies(edit):
    """Whether it leaves contracts, definitions and proofs as they are."""
    return not any(word == 'file' and not text.startswith('src/') or word in ('old', 'new') and re.search(r'\b(?:ensures|requires)\b', text) for word, text in edit.lines())


class Group:
    """Edits of one crate, of which no two change, or are refused by, one function."""

    def __init__(self, rt, crate, edits):
        self.rt, self.crate, self.edits = rt, crate, edits

    def made(self, edits):
        """The texts of the files that these change together, or None, and why they can't be made."""
        return self.rt.edited('\n'.join(map(text_of, edits)), self.crate.folder)

    def functions(self):
        return [function for edit in self.edits for function in edit.functions()]

    def takes(self, edit):
        """Takes the edit too, and says so, unless it belongs to a function of another one."""
        changed = {place for it in self.edits for place in changed_functions(it, self.crate.folder)}
        is_apart = not changed & changed_functions(edit, self.crate.folder) and not set(self.functions()) & set(edit.functions())
        if is_apart and self.made([*self.edits, edit])[0]:
            self.edits.append(edit)
            return True
        return False

    def prove(self, texts):
        """What the prover said of these texts, its status, and the lines by which it can't read one."""
        flags = ['--jobs', '1', *(word for it in self.functions() for word in ('--only', it))]
        ran = self.rt.checked(self.crate, texts, flags, None)
        if ran.returncode == -signal.SIGKILL:
            # most likely for memory
            ran = self.rt.checked(self.crate, texts, flags, None)
        return ran.stdout, ran.returncode, [line for line in ran.stdout.splitlines() if self.rt.unread(line, texts)]

    def verdicts(self):
        """Of each edit whether the prover refuses it, and what is said."""
        texts, _ = self.made(self.edits)
        printed, status, unread = self.prove(texts)
        goals = {it: unproved(it, printed, texts) if status == 1 and not unread else '' for it in self.edits}
        found = {it: (True, f'refused, as it must be: {text}') for it, text in goals.items() if text}
        rest = [it for it in self.edits if it not in found]
        if len(self.edits) > 1:
            # what is seen of an edit beside others is only that it is refused
            return {**found, **{it: Group(self.rt, self.crate, [it]).verdicts()[it] for it in rest}}
        why = [*unread, *(line for line in printed.splitlines() if re.search(r'\berror\b', line)), *printed.splitlines()[-1:]]
        return {**found, **{it: (False, f'NOT REFUSED: status {status}: {"".join(why[:1])[:400]}') for it in rest}}


def groups_of(rt, crates, edits):
    """The edits in groups, those first of the crates with most below them."""
    groups = []
    for edit in edits:
        alone = Group(rt, crates[edit.crate], [edit])
        why = alone.made([edit])[1] or ('' if is_of_bodies(edit) else 'it changes more than bodies')
        if why:
            raise StaleEdit(f'{edit.path}: {why}')
        if not any(it.crate is alone.crate and it.takes(edit) for it in groups):
            groups.append(alone)
    return sorted(groups, key=lambda it: -len(it.crate.below()))


# ---------------------------------------------------------------- what earlier runs saw

class Earlier:
    """Which edits earlier runs on this machine saw refused, kept where `rt` keeps what it tried: by the edit, by its crate's text, and by the libraries below as
    they are built."""

    def __init__(self, rt, crates, anew):
        below = {it.name: it for crate in crates for it in crate.below()}
        self.refused, self.kept = rt.REFUSED, rt.Kept(list({**below, **{it.name: it for it in crates}}.values()), anew)
        with concurrent.futures.ThreadPoolExecutor(rt.processors()) as pool:
            # (it reads all of a library)
            list(pool.map(self.kept.is_built, below.values()))

    def name(self, edit, crate):
        return self.kept.of_edit(edit.path, self.kept.key(crate))

    def said(self, edit, crate):
        found = self.kept.tried(self.name(edit, crate))
        return found[1] if found and found[0] == self.refused else None

    def keep(self, edit, crate, said):
        """Keeps it, unless a file that it rests on was touched since the run began."""
        if self.kept.is_untouched(crate) and all(self.kept.mark(it) == self.kept.marks[it.name] for it in crate.below()):
            self.kept.keep_tried(self.name(edit, crate), self.refused, said)


def say(edit, text):
    print(f'bodies {edit.crate}/{edit.name}: {text}', flush=True)


def by_functions(edits, given):
    """How many of these edits the prover refuses."""
    rt, crates = kit.load_gate()
    lacking = sorted({below.name for edit in edits for below in crates[edit.crate].below() if not is_built(below)})
    if lacking:
        raise StaleEdit('there is no library of ' + ', '.join(lacking))
    earlier = Earlier(rt, [crates[name] for name in sorted({it.crate for it in edits})], given.anew)
    known = {it: said for it in edits for said in [earlier.said(it, crates[it.crate])] if said}
    for edit, said in known.items():
        say(edit, f'{said} (by an earlier run on this machine, over the same text)')

    def count(group):
        verdicts = group.verdicts()
        for edit, (is_refused, said) in verdicts.items():
            say(edit, said)
            if is_refused:
                earlier.keep(edit, group.crate, said)
        return sum(is_refused for is_refused, _ in verdicts.values())
    with concurrent.futures.ThreadPoolExecutor(kit.lanes(rt)) as pool:
        return len(known) + sum(pool.map(count, groups_of(rt, crates, [it for it in edits if it not in known])))

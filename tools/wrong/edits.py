"""The wrong definitions, statements and bodies of this folder (README.md beside this file): which there are, what each changes, and copies in which it is made."""
import glob
import os
import re
import shutil

import state
from antt import CRATES_FOLDER

HERE = os.path.dirname(os.path.abspath(__file__))
KINDS = ('explore', 'parts', 'laws', 'statements', 'bodies', 'above')
# the crate whose definitions an edit of `laws` changes, by the crate of the laws
DEFINITIONS = {'laws_base': state.PROTOCOL, 'protocol_allowed': 'protocol_invariant'}
WORDS = ('file', 'old', 'new', 'seed', 'row', 'facts', 'rebases', 'branch', 'becomes', 'only')


def read(path):
    with open(path, encoding='utf8') as file:
        return file.read()


class StaleEdit(Exception):
    """An edit that cannot be read, or whose old text does not stand once in its file."""


class Edit:
    """One file: `by` is what finds it, `crate` the one that must be refused (none where no prover is asked)."""

    def __init__(self, path):
        self.path = path
        self.by, *folders, file = os.path.relpath(path, HERE).split(os.sep)
        self.crate = '/'.join(folders)
        self.name = file.removesuffix('.edit')

    def names(self):
        """By what it can be asked for."""
        return {self.name, self.crate, f'{self.crate}/{self.name}'}

    def lines(self):
        """Its lines, each as a word and a text."""
        with open(self.path, encoding='utf8') as file:
            for line in file.read().splitlines():
                found = re.fullmatch(r'(\w+):(?: (.*))?', line)
                if not found or found[1] not in WORDS:
                    raise StaleEdit(f'{self.path}: a line begins with none of {", ".join(WORDS)}: {line}')
                yield found[1], found[2] or ''

    def line(self, word):
        """What its line of this word says, or None."""
        return next((text.strip() for it, text in self.lines() if it == word), None)

    def functions(self):
        """The functions that alone are proved where it is tried in the gate."""
        return [text.strip() for word, text in self.lines() if word == 'only']

    def unknown_functions(self):
        """Those of its functions that are not where their names say: in a module, or as a method of a type that the module declares, or gives a trait."""
        for name in self.functions():
            *modules, function = name.split('::')
            owner = modules.pop() if modules and modules[-1][0].isupper() else None
            place = os.path.join(CRATES_FOLDER, self.crate, 'src', *(modules or ['lib'])) + '.rt'
            text = read(place) if os.path.isfile(place) else ''
            owners = [*re.findall(r'\b(?:struct|enum) (\w+)', text), *(of + trait for trait, of in re.findall(r'^impl\b.*?(\w+)(?:<.*>)? for (\w+)', text, re.M))]
            if owner not in owners if owner else not re.search(rf'\bfn {function}\b', text):
                yield name

    def branches(self):
        """Pairs of a text in the proofs and the one that becomes of it."""
        texts = [text for word, text in self.lines() if word in ('branch', 'becomes')]
        return list(zip(texts[::2], texts[1::2]))

    def target(self, file):
        """The file below the crates that a line `file:` means."""
        if self.by in ('statements', 'bodies'):
            return os.path.join(self.crate, file)
        if not file.startswith('specs/'):
            return file
        return os.path.join(DEFINITIONS[self.crate] if self.by == 'laws' else state.PROTOCOL, file)

    def changes(self):
        """Triples of a file below the crates, the old text and the new one."""
        target = old = None
        for word, text in self.lines():
            if word == 'file':
                target = self.target(text.strip())
            elif word == 'old':
                old = text
            elif word == 'new':
                yield target, old, text

    def changed_texts(self):
        """The texts of the files that it changes, by their path below the crates: the old text stands there once, and the new one takes its place."""
        texts = {}
        for target, old, new in self.changes():
            place = os.path.join(CRATES_FOLDER, target)
            if not os.path.isfile(place):
                raise StaleEdit(f'{self.path}: there is no file {target}')
            if target not in texts:
                with open(place, encoding='utf8') as file:
                    texts[target] = file.read()
            if texts[target].count(old) != 1:
                raise StaleEdit(f'{self.path}: the old text stands {texts[target].count(old)} times in {target}: {old}')
            texts[target] = texts[target].replace(old, new)
        if not texts:
            raise StaleEdit(f'{self.path}: it changes nothing')
        return texts

    def make(self, folder):
        """Makes it among the crates that lie in this folder."""
        for target, text in self.changed_texts().items():
            with open(os.path.join(folder, target), 'w', encoding='utf8') as file:
                file.write(text)


def edits_by(kind, names=()):
    """The edits that are found so; with names those alone that have one of them, or stand below a crate of that name."""
    found = [Edit(path) for path in sorted(glob.glob(os.path.join(HERE, kind, '**', '*.edit'), recursive=True))]
    return [it for it in found if not names or it.names().intersection(names)]


def copy_edited(edit, folder):
    """A copy of all crates' definitions with the edit."""
    for specs in glob.glob(os.path.join(CRATES_FOLDER, '*', 'specs')):
        shutil.copytree(specs, os.path.join(folder, os.path.relpath(specs, CRATES_FOLDER)))
    edit.make(folder)


def proofs():
    """The text of all proofs."""
    for path in glob.glob(os.path.join(CRATES_FOLDER, '*', 'proofs', '**', '*.antt'), recursive=True):
        with open(path, encoding='utf8') as file:
            yield file.read()


def stale_edits(kinds=KINDS, names=()):
    """How many edits there are, and what is wrong with them: each can be made, each function of a line `only:` is there, and each condition of a line `branch:`
    stands in some proof."""
    edits, faults = [edit for kind in kinds for edit in edits_by(kind, names)], []
    branches = {}
    for edit in edits:
        try:
            edit.changed_texts()
            branches.update({old: edit for old, _ in edit.branches()})
            faults += [f'{edit.path}: there is no function {name}' for name in edit.unknown_functions()]
        except StaleEdit as fault:
            faults.append(str(fault))
    for text in proofs() if branches else ():
        for old in [it for it in branches if it in text]:
            del branches[old]
    faults += [f'{edit.path}: no proof has this branch: {old}' for old, edit in branches.items()]
    return len(edits), faults

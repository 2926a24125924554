"""The kit's `rt` as a module, with each crate's stamp and libraries computed once in a run, and not on each path through crates.txt: `kit.py check` is `rt check`
so, and likewise each other command."""
import importlib.machinery
import importlib.util
import os
import re
import shutil
import sys

sys.dont_write_bytecode = True
# The largest checks of the gate take 4.8 GB (`cell_run`), 4.6 (`tests_live`) and 4.5 (`tests_cell`), most others less than 3.5, so four side by side have room by this.
CHECK = 4_800_000_000
ROOT = os.path.dirname(os.path.dirname(os.path.dirname(os.path.abspath(__file__))))


def remembered(method):
    """The method, which answers what it answered before."""
    known = {}

    def answer(self):
        if id(self) not in known:
            known[id(self)] = (self, method(self))
        return known[id(self)][1]
    return answer


def load():
    path = os.path.realpath(shutil.which('rt'))
    sys.argv[0] = path
    loader = importlib.machinery.SourceFileLoader('rt', path)
    module = importlib.util.module_from_spec(importlib.util.spec_from_loader('rt', loader))
    sys.modules['rt'] = module
    loader.exec_module(module)
    crate = module.rtlib.Crate
    crate.stamp = remembered(crate.stamp)
    below = remembered(crate.below)
    crate.below = lambda self: list(below(self))
    return module


def lanes(module):
    """How many checks may run side by side, as memory lets processors have a largest one each."""
    return max(1, min(module.processors(), module.free() // CHECK))


def load_gate():
    """`rt` as it is under `rt ci`, but over whole libraries, which other checks can use; and the repository's crates by name."""
    module = load()
    rtlib, crate = module.rtlib, module.Crate
    rtlib.stop, rtlib.Crate = module.stop, crate
    crate.cuts_libraries = crate.may_be_empty = crate.may_have_bugs = False
    # (whole libraries add words to the last line)
    rtlib.VERDICT = re.compile('logic=proved')
    rtlib.guarded()
    os.chdir(ROOT)
    crate.allowed = module.handles_of(ROOT)
    crates = {it.name: it for it in rtlib.crates_below(os.path.join(ROOT, 'crates'))}
    for it in crates.values():
        it.out = sys.stdout
    return module, crates


if __name__ == '__main__':
    sys.exit(load().main(sys.argv[1:]))

"""What `judge` and `judge_clients` run on: random lists of events, in a thread with a large stack, in which the definitions may recur deeply."""
import argparse
import collections
import time

from events import Explorer
from exploring import in_deep_stack
from facts import Broken
from statements import Statements


def run(judge, options):
    program = Statements()
    counts = collections.Counter()
    end = time.process_time() + 60 * options.minutes
    for seed in range(*options.seeds):
        if time.process_time() > end:
            break
        explorer = Explorer(seed, options.faults, program)
        judge(explorer, program)
        for place in range(options.events):
            try:
                explorer.step()
            except Broken as fact:
                print(f'seed {seed}, event {place}: {fact}')
                return 1
            if time.process_time() > end:
                break
        counts += explorer.counts
        counts['lists'] += 1
    print(', '.join(f'{counts[n]} {n}' for n in sorted(counts)))
    return 0


def judge_lists(doc, judge):
    """Judges lists of events by `judge(explorer, program)`, as the command line asks."""
    parser = argparse.ArgumentParser(description=doc, formatter_class=argparse.RawDescriptionHelpFormatter)
    parser.add_argument('--faults', action='store_true')
    parser.add_argument('--seeds', type=int, nargs=2, default=[0, 100000])
    parser.add_argument('--events', type=int, default=1200)
    parser.add_argument('--minutes', type=float, default=3)
    return in_deep_stack(run, judge, parser.parse_args())

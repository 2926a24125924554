"""A cell that dropped its messages and counts them anew, beside one that keeps all; and when a random list does so."""
import random

import state
from words import apply, begins_with


class Unlike(Exception):
    """A cell that counts its messages anew did something else than the one that keeps all."""


class Rebased:
    """The cell beside it after a rebase: its messages are dropped, and counted from 1. It takes each event under the number that its message has here."""

    def __init__(self, cell):
        self.happens = cell.happens
        # the messages of the other cell, and how many of them were dropped here
        self.all_sent = state.sent(cell.world)
        self.dropped = len(self.all_sent)
        self.world = state.with_grown(apply(cell.rebase_definition('without_messages'), cell.world))
        self.raised_event = cell.rebase_definition('raised_event')
        self.all_raised = cell.rebase_definition('all_raised')

    def lowered(self, event):
        """The event as it is here. A message that was dropped has no number."""
        if event[0] != 'Deliver' or event[1] == 0:
            return event
        if event[1] <= self.dropped:
            raise ValueError(f'message {event[1]} was dropped')
        return ('Deliver', event[1] - self.dropped, event[2])

    def take(self, event, choice, happened):
        """The same event here comes to the same, but for the messages before."""
        own = self.lowered(event)
        if apply(self.raised_event, self.dropped, own) != event:
            raise Unlike(f'{own} raised is not {event}')
        here = apply(self.happens, self.world, own, choice)
        if here['out'] != happened['out']:
            raise Unlike(f'{own}: {here["out"]} and not {happened["out"]}')
        for field, value in happened['world'].items():
            if field == 'sent':
                if not self.sent_alike(here['world'][field], value):
                    raise Unlike(f'{own}: the messages differ')
            elif here['world'][field] != value:
                raise Unlike(f'{own}: {field} differs')
        # what is equal is kept once: the next comparison sees that it is the same
        self.world = {**happened['world'], 'sent': here['world']['sent']}
        self.all_sent = state.sent(happened['world'])

    def sent_alike(self, own, others):
        """The messages are the same but for their numbers. Those of before were compared, so they need only be what they were."""
        count, all_count = len(state.sent(self.world)), len(self.all_sent)
        return (begins_with(own, state.sent(self.world)) and begins_with(others, self.all_sent)
                and apply(self.all_raised, self.dropped, own[count:]) == others[all_count:])


class Rebases:
    """When the master and each server of a random list begin again, one by one, and all messages are dropped then; by chance of its own, so that
    lists without it stay as they are."""

    def __init__(self, seed, are_wanted):
        self.chance = random.Random(f'rebases {seed}')
        self.rate = self.chance.choice([.002, .005, .02]) if are_wanted else 0
        self.restarts_left = []
        self.last_restart = None

    def next_restart(self, cell, now):
        """The next restart of a rebase that goes on, or begins now; or None."""
        if not self.restarts_left:
            if not self.rate or self.chance.random() >= self.rate:
                return None
            self.restarts_left = list(apply(cell.rebase_definition('restart_events'), cell.server_count, now))
            self.last_restart = self.restarts_left[-1]
        return self.restarts_left.pop(0)

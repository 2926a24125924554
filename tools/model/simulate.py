"""What is kept beside a world for its proof (crates/protocol_invariant/specs), along a list of events: each part of the
invariant is evaluated after each event, of messages the new ones each time and all of them now and then, for each way
to decide what was under way.
"""
import collections

import state
from facts import Broken
import statements
from words import FiniteMap, Function, apply

CRATE = 'protocol_invariant'
# the parts that speak of the world, and those that speak of one message
PARTS = [('Leases', 'AreLeases'), ('Versions', 'AreVersions'), ('ReplicaParts', 'AreReplicas'), ('AttemptParts', 'AreAttempts')]
MESSAGE_PARTS = [('OrdersSay', 'OrderInFlight'), ('ReplicaParts', 'ReplicaInFlight'), ('AttemptParts', 'AttemptInFlight')]
# how often all messages are looked at
EVERY = 25


def shown_message(message):
    return f'{message["number"]} {message["sender"]} to {message["receiver"]}: {message["body"]}'


class Simulation:
    """Takes the place of an Explorer's facts."""

    def __init__(self, explorer, program):
        self.cell = explorer.cell
        self.counts = explorer.counts
        self.program = program
        self.ghost = self.definition('Ghost', 'first_ghost')
        self.moved = self.definition('Advance', 'ghost_moved')
        self.seen = self.definition('Advance', 'ghost_seen')
        self.resolved = self.definition('Ghost', 'resolved')
        self.ghost_resolved = self.definition('Ghost', 'ghost_resolved')
        self.parts = [(name, self.definition(module, name)) for module, name in PARTS]
        self.message_parts = [(name, self.definition(module, name)) for module, name in MESSAGE_PARTS]
        self.machine_part = self.definition('MachineParts', 'IsMachine')
        self.shape_part = self.definition('ShapeParts', 'AreShapes')
        self.shown_part = program.function(state.PROTOCOL, 'Explained', 'IsShown')
        self.clients_part = self.definition('ClientParts', 'AreClients')
        self.client_message = self.definition('ClientParts', 'ClientInFlight')
        self.actions_at = self.definition('Actions', 'actions_at')
        self.spots_after = self.definition('Actions', 'spots_after')
        self.is_allowed = self.definition('Allowed', 'IsAllowed')
        self.after = program.function('relaxed_file', 'Run', 'after')
        self.spots = FiniteMap({})
        # by whether what was under way at the master is found made
        machine = apply(program.function('relaxed_file', 'Machine', 'new_machine'), self.cell.world['config'])
        self.machines = {False: machine, True: machine}
        self.history = collections.deque(maxlen=14)
        self.count = 0
        self.choice = None
        take = self.cell.take

        def take_with(event, choice=None):
            self.choice = choice
            return take(event, choice)
        self.cell.take = take_with
        explorer.facts = self
        # the facts of answers rest on those that are not tested here
        explorer.answer_facts.check = lambda event, before, answer: None

    def definition(self, module, name):
        return self.program.function(CRATE, module, name)

    def check(self, event, before):
        world = self.cell.world
        if not state.is_kept(world):
            raise Broken('clocks or disks were not kept')
        new = world['sent'][len(before['sent']):]
        self.act(event, before, world)
        self.ghost = apply(self.seen, apply(self.moved, self.ghost, before, event, self.choice), world, new)
        self.count += 1
        shown = shown_message(before['sent'][event[1] - 1]) if event[0] == 'Deliver' else ''
        self.history.append(f'{event} {self.choice["ending"]} {shown} sent {[x["number"] for x in new]}')
        try:
            self.check_parts(world, world['sent'] if self.count % EVERY == 0 or event[0] == 'Restart' else new)
        except Broken as part:
            raise Broken('\n    '.join([str(part), *self.history])) from None

    def act(self, event, before, world):
        """The machines take their actions, each of which has to be allowed."""
        new_stop = world['master']['under_way'] and world['master']['under_way'] is not before['master']['under_way']
        if event[0] == 'Restart' and event[1] == ('Master',) and self.choice['ending'] != ('Lost',):
            was_made = bool(self.choice['decided'] and self.choice['decided'][0])
            self.machines = dict.fromkeys((False, True), self.machines[was_made])
        are_same = self.machines[False] is self.machines[True]
        self.machines[False] = self.acted(self.machines[False], event, before, world, self.choice)
        if new_stop:
            made = self.choice['ending'][1]
            self.machines[True] = self.acted(self.machines[True], event, before, world, {**self.choice, 'ending': ('Stops', made + 1)})
        else:
            self.machines[True] = self.machines[False] if are_same else self.acted(self.machines[True], event, before, world, self.choice)
        self.spots = apply(self.spots_after, self.spots, world['master'])

    def acted(self, machine, event, before, world, choice):
        for action in apply(self.actions_at, before, world, self.ghost, machine, self.spots, choice, event):
            del statements.broken[:]
            if not apply(self.is_allowed, machine, action):
                raise Broken('\n    '.join([f'not allowed: {action} {event} {choice["ending"]} {statements.broken}', *self.history]))
            machine = apply(self.after, machine, action)
            self.counts['machine ' + action[0]] += 1
        return machine

    def check_parts(self, world, messages):
        # what was under way isn't shown, so the machine that takes it as lost is the one that agrees
        del statements.broken[:]
        if not apply(self.shown_part, world, self.machines[False]):
            raise Broken(f'IsShown: {statements.broken}')
        for found, ghost, was_made in self.decisions(world):
            del statements.broken[:]
            if not apply(self.machine_part, found, self.machines[was_made], self.spots):
                raise Broken(f'IsMachine: {statements.broken}')
            if not apply(self.shape_part, found, self.machines[was_made]):
                raise Broken(f'AreShapes: {statements.broken}')
            if not apply(self.clients_part, found, self.machines[was_made], ghost):
                raise Broken(f'AreClients: {statements.broken}')
            for message in messages:
                if not apply(self.client_message, found, self.machines[was_made], ghost, message):
                    raise Broken(f'ClientInFlight {statements.broken} of message {shown_message(message)}')
            for name, part in self.parts:
                del statements.broken[:]
                if not apply(part, found, ghost):
                    raise Broken(f'{name}: {statements.broken}')
            for name, part in self.message_parts:
                for message in messages:
                    del statements.broken[:]
                    if not apply(part, found, ghost, message):
                        raise Broken(f'{name} {statements.broken} of message {shown_message(message)}')

    def decisions(self, world):
        """The ways to decide what was under way: of the master and of the servers, made or not."""
        if not any([world['master']['under_way']] + [s['under_way'] for s in world['servers']]):
            return [(world, self.ghost, False)]
        found = []
        for master, servers in ((False, False), (True, True), (False, True)):
            decided = Function(1, lambda server, servers=servers: [servers, servers])
            found.append((apply(self.resolved, [master, master], decided, world), apply(self.ghost_resolved, decided, world, self.ghost), master))
        return found

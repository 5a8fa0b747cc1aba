"""A search in breadth of all worlds that histories of a machine reach, under any scheduler and at any times, in the order of `l4run endings`.

Ticks are no choices: before each step all clocks go so far on that each finite period is over, as no step but a tick ever asks that one is not. Worlds are told apart by
all that a later step may read but time and numbers of sends. So an ending comes with a shortest history, but for ticks, to a world in which nothing but clocks can go on."""

import copy
import dataclasses
import enum

from second import machines, threads, words
from second.model import World, late
from second.threads import Name, Phase

# Longer than each period that a time has.
LONG = 1 << 42


# Worlds


def copied(world):
    """Another world in which all is as it is in this one, as `World.copy` makes it, without what no step changes: a search copies for each step."""
    other = World.__new__(type(world))
    other.machine = world.machine
    other.sends = {name: copy.copy(send) for name, send in world.sends.items()}
    other.members = {thread: member_copied(member, other.sends) for thread, member in world.members.items()}
    other.send_wishes = set(world.send_wishes)
    other.owed = dict(world.owed)
    other.clocks = list(world.clocks)
    return other


def member_copied(member, sends):
    other = copy.copy(member)
    other.context = copy.copy(member.context)
    other.context.registers = list(member.context.registers)
    other.send = member.send and sends[member.send.name]
    other.waiting = list(member.waiting)
    return other


def ticks(world):
    """So many that each finite period which stands is over."""
    return [("tick", cpu, clock + LONG) for cpu, clock in enumerate(world.clocks) if is_timed(world)]


def is_timed(world):
    """Whether a finite period stands that is not over yet, by any clock."""
    periods = [member.period for member in world.members.values() if member.receives()] + [send.period for send in world.sends.values()]
    return any(periods)


def after(world, steps):
    other = copied(world)
    for step in steps:
        other.take(*step)
    return other


def code(world):
    """What tells it from other worlds. Nothing reads the registers, the place or the order of what waits of a deleted thread any more."""
    members = tuple(member_code(world, member) for member in world.members.values())
    owed = tuple((owed.name.thread, owed.originator, owed.old_partner, owed.new_partner) for owed in world.owed.values())
    return members, owed


def member_code(world, member):
    waiting = tuple(name.thread for name in member.waiting)
    send = member.send and send_code(member.send, member.send.name in world.send_wishes)
    if not member.alive:
        return tuple(sorted(waiting)), send, member.order
    return waiting, send, member.order, context_code(member.context), phase_code(member), member.receive_wish


def context_code(context):
    return tuple(context.registers), int(context.error), context.last, context.actual, context.place


def phase_code(member):
    if member.phase is Phase.RECEIVING:
        return member.phase.value, member.source, member.period
    return member.phase.value


def send_code(send, is_cancelled):
    receive = (send.source, send.receive_period) if send.is_call else None
    return send.destination, send.label, send.message, send.propagated, send.shown, send.period, receive, is_cancelled


# What is possible

# The order in which the steps of one thread are tried.
VERBS = ("local", "begin", "queue", "deliver", "wait", "stimeout", "rtimeout", "snobody", "rnobody", "scancel", "rcancel", "drop", "order", "obey")


def possible(world):
    """Every step but ticks that is possible now or after ticks alone: those of the threads in order of declaration, then those that are owed."""
    steps = [step for thread, member in world.members.items() for step in in_order(of_thread(world, thread, member))]
    return steps + [("retarget", name) for name in world.owed]


def in_order(steps):
    return sorted(steps, key=lambda step: VERBS.index(step[0]))


def of_thread(world, thread, member):
    own = own_step(world, thread, member)
    if own:
        yield own
    if member.order is not None:
        yield "obey", thread
    yield from of_receive(world, thread, member)
    if member.send is not None:
        yield from of_send(world, member.send.name)


def own_step(world, thread, member):
    """That of the instruction which a thread is ready for."""
    if not member.alive or member.phase is not Phase.READY:
        return None
    context = member.context
    instruction = context.instruction()
    if threads.concerns_nobody_else(world.machine, context):
        return "local", thread
    if isinstance(instruction, machines.Order):
        return "order", thread, instruction.target, instruction.what
    if instruction.to == words.NIL:
        return "wait", thread
    return "begin", Name(thread, context.begun + 1)


def of_receive(world, thread, member):
    if not member.receives():
        return
    if world.can_rtimeout(thread, late):
        yield "rtimeout", thread
    if world.can_rnobody(thread):
        yield "rnobody", thread
    if world.can_rcancel(thread):
        yield "rcancel", thread


def of_send(world, name):
    if world.can_queue(name):
        yield "queue", name
    if world.can_deliver(name):
        yield "deliver", name, *world.told(name)
    if world.can_stimeout(name, late):
        yield "stimeout", name
    if world.can_snobody(name):
        yield "snobody", name
    if world.can_scancel(name):
        yield "scancel", name
    if world.can_drop(name):
        yield "drop", name


# A thread's own next step alone


class Reduction:
    """Which threads nobody else can disturb, by the scripts alone."""

    def __init__(self, machine):
        declared = machine.threads.values()
        self.deleted = {thread for thread in machine.threads if is_named(declared, thread, deletes)}
        self.ordered = {thread for thread in machine.threads if is_named(declared, thread, orders)}
        self.tried = {thread for thread in machine.threads if is_named(declared, thread, tries)}
        self.turns = machine.retargets() and any(may_ask_to_propagate(each) for declaration in declared for each in declaration.script)

    def is_alone(self, step):
        match step:
            case ("local", thread) | ("order", thread, *_):
                return thread not in self.deleted
            case ("wait", thread) | ("begin", Name(thread, _)):
                return not self.turns and thread not in self.ordered and thread not in self.tried
        return False

    def chosen(self, steps):
        """The first step that need be tried alone, or else all."""
        return next(([step] for step in steps if self.is_alone(step)), steps)


class All:
    """Nothing is left out."""

    def chosen(self, steps):
        return steps


def is_named(declared, thread, names):
    return any(names(each, thread) for declaration in declared if declaration.thread != thread for each in declaration.script)


def deletes(instruction, thread):
    return orders(instruction, thread) and instruction.what == machines.DELETE


def may_be(operand, thread):
    """What a register has may be any id."""
    return operand in (thread, machines.LAST) or isinstance(operand, machines.InRegister)


def orders(instruction, thread):
    return isinstance(instruction, machines.Order) and may_be(instruction.target, thread)


def tries(instruction, thread):
    return isinstance(instruction, machines.Ipc) and instruction.send_period == 0 and may_be(instruction.to, thread)


def may_ask_to_propagate(instruction):
    """Bit 12 of MR0 asks. A message that is received has it only where one asked before."""
    match instruction:
        case machines.Tag(word):
            return bool(word & words.PROPAGATED)
        case machines.Set(register, _) | machines.Copy(register, _) | machines.Add(register, _) | machines.From(register):
            return register == 0
    return False


# Histories


def told(machine, steps):
    """The history of steps that were taken whatever time passes: before a timeout that is not due yet the clock of its thread's processor goes on until
    it is."""
    world, history = World(machine), []
    for step in steps:
        for taken in (*until_due(world, step), step):
            world.take(*taken)
            history.append(taken)
    return history


def until_due(world, step):
    match step:
        case "stimeout", name:
            return until(world, name.thread, world.sends[name].begun + world.sends[name].period)
        case "rtimeout", thread:
            return until(world, thread, world.members[thread].since + world.members[thread].period)
    return []


def until(world, thread, clock):
    """The tick by which the clock of a thread's processor is that late, where it is earlier."""
    return [("tick", world.machine.cpu(thread), clock)] if world.clock(thread) < clock else []


# The search


@dataclasses.dataclass(eq=False)
class Found:
    """A world with how many steps lead to it, what is possible there, the world before, and the step from there."""

    world: World
    steps: int
    possible: list
    before: "Found | None" = None
    last: tuple | None = None

    @property
    def is_ending(self):
        return not self.possible

    def history(self):
        steps, found = [], self
        while found.before:
            steps.append(found.last)
            found = found.before
        return told(self.world.machine, reversed(steps))


@dataclasses.dataclass(frozen=True)
class Search:
    """Which worlds were found, how deep all are told, and whether there are no more."""

    worlds: dict
    steps: int
    is_whole: bool

    def endings(self):
        return [found for found in self.worlds.values() if found.is_ending]


def search(machine, depth, most, reduction):
    """Ends where a world is as deep as this, or where there is one world more than these."""
    first = World(machine)
    opening = Found(first, 0, possible(first))
    worlds, order = {code(first): opening}, [opening]
    for found in order:
        if found.steps >= depth:
            return Search(worlds, depth, False)
        for step in reduction.chosen(found.possible):
            world = after(found.world, (*ticks(found.world), step))
            key = code(world)
            if key in worlds:
                continue
            if len(worlds) >= most:
                return Search(worlds, found.steps, False)
            worlds[key] = Found(world, found.steps + 1, possible(world), found, step)
            order.append(worlds[key])
    return Search(worlds, order[-1].steps, True)


# Threads that are stuck for ever


class Wait(enum.Enum):
    """In which phase a thread waits that may wait for ever: a receive phase that takes one thread alone is closed to all others."""

    SEND = "send"
    RECEIVE = "receive"


OPEN = (words.NIL, words.ANY, words.ANY_LOCAL)


def wait_of(member):
    if not member.alive:
        return None
    if member.phase is Phase.SENDING:
        return Wait.SEND
    if member.phase is Phase.RECEIVING and member.source not in OPEN:
        return Wait.RECEIVE
    return None


def waits_of(world):
    return {thread: wait_of(member) for thread, member in world.members.items()}


def still_for_ever(waits, behind):
    """The places at which a thread waits for ever. Of each place there is how the thread waits there, and the places that steps lead to from there: nothing where that is not known."""
    moves = {place for place, wait in enumerate(waits) if wait is None or behind[place] is None or any(waits[to] is not wait for to in behind[place])}
    before = [[] for _ in waits]
    for place, onwards in enumerate(behind):
        for to in onwards or ():
            before[to].append(place)
    left = list(moves)
    while left:
        for place in before[left.pop()]:
            if place not in moves:
                moves.add(place)
                left.append(place)
    return [place for place in range(len(waits)) if place not in moves]


@dataclasses.dataclass(frozen=True)
class Stuck:
    """The threads that are stuck for ever, each with the world that was found first in which it is, and whether the search for them was whole."""

    threads: list
    is_whole: bool


def stuck(machine, depth, most, reduction):
    """Of all threads, in order of declaration."""
    walk = Walk(machine)
    walk.go(depth, most, reduction)
    waits, behind = [waits_of(found.world) for found in walk.order], walk.onwards()
    stands = {thread: still_for_ever([each[thread] for each in waits], behind) for thread in machine.threads}
    return Stuck([(thread, walk.order[places[0]]) for thread, places in stands.items() if places], walk.is_whole)


class Walk:
    """A search that leaves no step out for ever: its worlds, in the order in which they were found, with the place of each. Where it was cut, it has gone on from each world that
    fewer steps lead to than `steps`."""

    def __init__(self, machine):
        first = World(machine)
        self.order, self.places = [Found(first, 0, possible(first))], {code(first): 0}
        # Of those from which the search went on, where the steps lead that it took.
        self.taken = []
        self.steps, self.is_whole = 0, False

    def go(self, depth, most, reduction):
        for found in self.order:
            self.steps = found.steps
            if found.steps >= depth:
                return
            onwards = []
            for step, world, key in self.walked(found, reduction):
                if key not in self.places:
                    if len(self.order) >= most:
                        return
                    self.places[key] = len(self.order)
                    self.order.append(Found(world, found.steps + 1, possible(world), found, step))
                onwards.append(self.places[key])
            self.taken.append(onwards)
        self.is_whole = True

    def walked(self, found, reduction):
        """The steps that are taken from a world, each with where it leads. A step that stands alone and leads back, to this world or one before it, could hide all others: so all are
        taken there."""
        here = len(self.taken)
        nexts = [next_by(found, step) for step in reduction.chosen(found.possible)]
        if len(nexts) == 1 and self.places.get(nexts[0][-1], here + 1) <= here:
            return [next_by(found, step) for step in found.possible]
        return nexts

    def onwards(self):
        """Of each world the places of those that steps lead to from there, or nothing where anything may come. Where the search was cut, that is so of each that is as far as it
        went; and a step that was not taken may lead to one of these."""
        if self.is_whole:
            return self.taken
        return [self.all_onwards(found) if found.steps < self.steps else None for found in self.order]

    def all_onwards(self, found):
        keys = [next_by(found, step)[-1] for step in found.possible]
        return [self.places[key] for key in keys if key in self.places]


def next_by(found, step):
    world = after(found.world, (*ticks(found.world), step))
    return step, world, code(world)

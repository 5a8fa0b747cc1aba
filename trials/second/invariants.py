"""What no world on the way may meet: conditions of lines of a report, what they read, and a search in breadth for a world that meets one.

A step that nobody can disturb is tried alone only where no line reads what it writes, and where it leads to a world that the search has not gone on from. So where the search is
whole and has found no world that meets the condition, no history meets it."""

import dataclasses
import enum

from second import machines, words, worlds
from second.expectations import ANY_WORD, ANY_WORDS, fits, fits_word, split_lines
from second.model import World
from second.threads import Name


class Part(enum.Enum):
    """What is told of a thread."""

    STATE = "state"
    CODE = "ErrorCode"
    SENDERS = "from and ActualSender"
    REGISTERS = "message registers"
    SEND = "undecided send"


# What the words of a thread's line are, behind its id. Registers stand behind these.
COLUMNS = (Part.STATE, Part.CODE, Part.SENDERS, Part.SENDERS)
NONE_LEFT_OUT = frozenset()


class LeftOut(enum.Enum):
    """What a wrong search leaves out."""

    VISIBILITY = "that a line may read what a step writes"
    SENDERS = "that an instruction writes senders"
    PROVISO = "that a step alone may not lead back"
    OPENING = "the opening"
    ENDINGS = "worlds in which nothing is possible"


# Conditions


class Condition:
    """A world meets it where its report has all of these lines. The line of an ending is none of them."""

    def __init__(self, lines):
        self.asked = [line.split(" ") for line in lines]

    def is_met(self, world):
        told = split_lines(world.report(at_rest=False))[:-1]
        return all(any(fits(asked, line) for line in told) for asked in self.asked)

    def reads(self, thread):
        return {part for asked in self.asked for part in line_reads(asked, words.spelled(thread))}


def line_reads(asked, thread):
    """What a line reads of a thread: what is neither `*` nor behind `..`."""
    first, *others = asked
    if fits_word(first, "thread") and others and fits_word(others[0], thread):
        yield from columns_read(others[1:])
    if send_read(asked, thread):
        yield Part.SEND


def send_read(asked, thread):
    """Whether the line may be that of a send of the thread."""
    first, *others = asked
    if not others:
        return first == ANY_WORDS
    return fits_word(first, "waiting") and (others == [ANY_WORDS] or may_name(others[0], thread))


def may_name(asked, thread):
    """A line that asks for a number reads it of all."""
    name, _, number = asked.partition("#")
    return asked == ANY_WORD or number.isdecimal() or (name, number) == (thread, ANY_WORD)


def columns_read(asked):
    for number, part in enumerate(COLUMNS):
        if asked[number:] in ([], [ANY_WORDS]):
            return
        if asked[number] != ANY_WORD:
            yield part
    if asked[len(COLUMNS) :] != [ANY_WORDS]:
        yield Part.REGISTERS


# What a step writes


def written(world, step):
    """The thread of a step that may be tried alone, and which parts of it the step writes."""
    match step:
        case ("local", thread):
            return thread, written_by(world.members[thread].context.instruction())
        case ("begin", Name(thread, _)):
            return thread, {Part.STATE, Part.SEND}
        case ("wait", thread) | ("order", thread, *_):
            return thread, {Part.STATE}


def written_by(instruction):
    match instruction:
        case machines.Set() | machines.Copy() | machines.Add() | machines.From() | machines.Tag():
            return {Part.REGISTERS}
        case machines.Virtual():
            return {Part.SENDERS}
        case machines.Ipc():
            return {Part.CODE, Part.SENDERS, Part.REGISTERS}
        case machines.Order():
            return {Part.CODE}
        case machines.End():
            return {Part.STATE}
    return set()


# The search


@dataclasses.dataclass(frozen=True)
class Answer:
    """The first found world that meets the condition, if there is one; else whether no history meets it. How many worlds were found."""

    met: worlds.Found | None
    is_whole: bool
    count: int


class Search:
    """A search that goes on from worlds in the order in which they were found, and judges each of them."""

    def __init__(self, machine, condition, left_out=NONE_LEFT_OUT):
        first = World(machine)
        self.condition = condition
        self.left_out = left_out
        self.reduction = worlds.Reduction(machine)
        self.order, self.places = [worlds.Found(first, 0, worlds.possible(first))], {worlds.code(first): 0}

    def go(self, depth, most):
        """Ends where a world meets the condition, where one is as deep as this, or where there is one more than these."""
        for here, found in enumerate(self.order):
            if self.is_judged(found) and self.condition.is_met(found.world):
                return Answer(found, False, len(self.order))
            if found.steps >= depth:
                return self.cut()
            for step, world, key in self.choices(found, here):
                if key in self.places:
                    continue
                if len(self.order) >= most:
                    return self.cut()
                self.places[key] = len(self.order)
                self.order.append(worlds.Found(world, found.steps + 1, worlds.possible(world), found, step))
        return Answer(None, True, len(self.order))

    def cut(self):
        """A found world may meet the condition that the search has not judged yet."""
        met = next((found for found in self.order if self.condition.is_met(found.world)), None)
        return Answer(met, False, len(self.order))

    def is_judged(self, found):
        if found.is_ending:
            return LeftOut.ENDINGS not in self.left_out
        return found.before is not None or LeftOut.OPENING not in self.left_out

    def choices(self, found, here):
        """A step alone that goes unseen and does not lead back, or all steps."""
        for step in filter(self.reduction.is_alone, found.possible):
            if self.is_visible(found.world, step):
                continue
            only = worlds.next_by(found, step)
            if LeftOut.PROVISO in self.left_out or self.places.get(only[-1], here + 1) > here:
                return [only]
        return [worlds.next_by(found, step) for step in found.possible]

    def is_visible(self, world, step):
        thread, parts = written(world, step)
        if LeftOut.VISIBILITY in self.left_out:
            return False
        if LeftOut.SENDERS in self.left_out:
            parts = parts - {Part.SENDERS}
        return bool(self.condition.reads(thread) & parts)


class WholeSearch(Search):
    """A search that tries every step. The first world that it finds is the nearest."""

    def choices(self, found, here):
        return [worlds.next_by(found, step) for step in found.possible]


def search(machine, condition, depth, most, left_out=NONE_LEFT_OUT):
    return Search(machine, condition, left_out).go(depth, most)


# What the program says: it judges what a whole search has found, and then looks for a shorter history by all steps.


@dataclasses.dataclass(frozen=True)
class Verdict:
    """The lines of an answer, its status, and the history that is told, if one is."""

    lines: str
    status: int
    history: list | None


def explore(search, depth, most):
    """Lets a search go on from all that it finds. How far it went, and whether there is no more."""
    for here, found in enumerate(search.order):
        if found.steps >= depth:
            return depth, False
        for step, world, key in search.choices(found, here):
            if key in search.places:
                continue
            if len(search.order) >= most:
                return found.steps, False
            search.places[key] = len(search.order)
            search.order.append(worlds.Found(world, found.steps + 1, worlds.possible(world), found, step))
    return search.order[-1].steps, True


def first_met(search):
    return next((found for found in search.order if search.condition.is_met(found.world)), None)


def nearest(machine, condition, met, most):
    """A history of fewer steps, where one is found, and whether there is none of fewer."""
    search = WholeSearch(machine, condition)
    depth, is_whole = explore(search, max(met.steps - 1, 0), most)
    nearer = first_met(search)
    return (nearer, True) if nearer else (met, is_whole or depth >= met.steps - 1)


def verdict(machine, condition, depth, most):
    search = Search(machine, condition)
    deep, is_whole = explore(search, depth, most)
    met = first_met(search)
    last = f"worlds {len(search.order)} steps {deep} {'whole' if is_whole else 'cut'}\n"
    if not met:
        return Verdict(("never met\n" if is_whole else "not met: cut\n") + last, 0 if is_whole else 3, None)
    met, is_shortest = nearest(machine, condition, met, most)
    head = f"met, steps {met.steps}{'' if is_shortest else ' or fewer'}\n"
    return Verdict(head + told(met.world) + last, 4, met.history())


def told(world):
    """The lines of a world but that of an ending, those of sends in order of declaration of their threads."""
    lines = world.report(at_rest=False).splitlines()[:-1]
    threads = [line for line in lines if line.startswith("thread ")]
    places = {line.split(" ")[1]: place for place, line in enumerate(threads)}
    sends = sorted(lines[len(threads) :], key=lambda line: places[line.split(" ")[1].partition("#")[0]])
    return "".join(line + "\n" for line in threads + sends)

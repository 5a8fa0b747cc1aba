"""With which reports a machine may end, and by how few steps, whatever its scheduler does and whatever time passes: by the rules alone.

Every step is tried at every world. Clocks stand, and each finite period counts as over. Two worlds are one only where all that they have is equal but for clocks and numbers
of sends: nothing is left out because no step reads it, and no step because another may be told first. So this takes far more worlds than a search must."""

import dataclasses
import enum
import math

from second import model, words, worlds
from second.threads import Phase

# What tells no worlds apart: what no step changes, clocks, and the numbers of sends.
LEFT_OUT = {"machine", "format", "declaration", "clocks", "since", "begun"}


class Timeless(model.World):
    """A world whose clocks stand, and in which each finite period is over."""

    def clock(self, thread):
        return 0

    def can_stimeout(self, name, _clock):
        return super().can_stimeout(name, model.late)

    def can_rtimeout(self, thread, _clock):
        return super().can_rtimeout(thread, model.late)

    def next_ones(self):
        """The worlds that one step leads to. A step that is not possible changes nothing."""
        world = worlds.copied(self)
        for thread in self.members:
            for step in self.candidates(thread):
                try:
                    world.take(*step)
                except model.Impossible:
                    continue
                yield world
                world = worlds.copied(self)


def whole(value):
    """All that a value has, as one that can be compared."""
    if value is None or isinstance(value, (int, str)):
        return value
    if isinstance(value, model.Name):
        return value.thread
    if isinstance(value, dict):
        return tuple(sorted(((whole(key), whole(field)) for key, field in value.items()), key=repr))
    if isinstance(value, (list, tuple)):
        return tuple([whole(field) for field in value])
    if isinstance(value, set):
        return tuple(sorted(map(whole, value), key=repr))
    if hasattr(value, "__dict__") and not isinstance(value, enum.Enum):
        return tuple((name, whole(field)) for name, field in vars(value).items() if name not in LEFT_OUT)
    return value


@dataclasses.dataclass(frozen=True)
class Ends:
    """By how few steps each report is come to, as far as this many steps lead, or at all."""

    steps_of: dict
    steps: int
    is_whole: bool

    def within(self, steps):
        return {report: least for report, least in self.steps_of.items() if least <= steps}


def ends(machine, most):
    """Ends where there are more worlds than these."""
    level, seen, steps_of = [Timeless(machine)], {whole(Timeless(machine))}, {}
    steps = 0
    while level:
        behind = []
        for world in level:
            next_ones = list(world.next_ones())
            if not next_ones:
                steps_of.setdefault(bare(world.report(at_rest=True)), steps)
            for after in next_ones:
                key = whole(after)
                if key not in seen:
                    seen.add(key)
                    behind.append(after)
        if len(seen) > most and behind:
            return Ends(steps_of, steps, False)
        level = behind
        steps += 1
    return Ends(steps_of, steps - 1, True)


def stuck(machine, most):
    """The threads that may be stuck for ever, or nothing where there are more worlds than these: those that wait in some world from which no chain of steps leads to one in which they
    do not wait so."""
    opening = Timeless(machine)
    found, places, behind = [opening], {whole(opening): 0}, []
    for world in found:
        nexts = [(after, whole(after)) for after in world.next_ones()]
        for after, key in nexts:
            if key not in places:
                places[key] = len(found)
                found.append(after)
        behind.append({places[key] for _, key in nexts})
        if len(found) > most:
            return None
    return {thread for thread in machine.threads if any(stays(thread, place, found, behind) for place in range(len(found)))}


def least_to(machine, most, is_met):
    """By how few steps a world is come to that is so, or infinitely many where none is. None where there are more worlds than these."""
    opening = Timeless(machine)
    level, seen, steps = [opening], {whole(opening)}, 0
    while level:
        if any(map(is_met, level)):
            return steps
        behind = []
        for world in level:
            for after in world.next_ones():
                key = whole(after)
                if key not in seen:
                    seen.add(key)
                    behind.append(after)
        if len(seen) > most:
            return None
        level = behind
        steps += 1
    return math.inf


def stays(thread, place, found, behind):
    """Whether a thread waits in a world, and waits so in each that comes from there."""
    phase = closed_phase(found[place].members[thread])
    if phase is None:
        return False
    seen, left = {place}, [place]
    while left:
        for to in behind[left.pop()] - seen:
            if closed_phase(found[to].members[thread]) is not phase:
                return False
            seen.add(to)
            left.append(to)
    return True


def closed_phase(member):
    """The phase of a thread that sends, or that receives from one thread alone."""
    is_open = member.phase is Phase.RECEIVING and not (words.is_global(member.source) or words.is_local(member.source))
    return None if not member.alive or is_open or member.phase not in (Phase.SENDING, Phase.RECEIVING) else member.phase


def bare(report):
    """The lines of a report without what runs to one ending may differ in: numbers of sends, registers of deleted threads, and the order in which sends began."""
    return tuple(sorted(map(bare_line, report.splitlines())))


def bare_line(line):
    match line.split(" "):
        case "thread", thread, model.DELETED, *_:
            return f"thread {thread} {model.DELETED}"
        case "waiting", name, destination:
            return f"waiting {name.partition('#')[0]}#* {destination}"
    return line

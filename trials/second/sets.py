"""Persistent sets of processors: of which alone the choices have to be tried in a state, where only endings are asked for. Nobody else will post to them on an
empty way while they do nothing. That is told by the scripts and by what processors know."""

from second import machines
from second.threads import Phase
from second.worlds import deletes, may_ask_to_propagate


def places_behind(instruction, place):
    match instruction:
        case machines.End():
            return ()
        case machines.Jump(target):
            return (target,)
        case machines.OnError() | machines.OnLabel() | machines.OnWord() | machines.OnFrom():
            return place + 1, instruction.place
    return (place + 1,)


def reached(declaration, place):
    """The places that a script may come to from one on, that one too."""
    left, found = [place], set()
    while left:
        here = left.pop()
        if here < len(declaration.script) and here not in found:
            found.add(here)
            left += places_behind(declaration.script[here], here)
    return found


class Sets:
    def __init__(self, machine):
        self.machine = machine
        scripts = [declaration.script for declaration in machine.threads.values()]
        self.propagates = any(may_ask_to_propagate(each) for script in scripts for each in script)
        self.deletable = {thread for thread in machine.threads if any(deletes(each, thread) for script in scripts for each in script)}
        self.aims = {
            thread: [self.aims_from(declaration, place) for place in range(len(declaration.script))] for thread, declaration in machine.threads.items()
        }

    def aims_from(self, declaration, place):
        """Whom a script may send or give an order to from a place on: processors, and LAST for whomever it was sent to by."""
        return {aim for each in reached(declaration, place) for aim in self.aim_of(declaration.script[each])}

    def aim_of(self, instruction):
        match instruction:
            case machines.Ipc(to=operand) | machines.Order(target=operand):
                return self.named_by(operand)
        return set()

    def named_by(self, operand):
        """What a register has may be any id."""
        match operand:
            case machines.LAST:
                return {machines.LAST}
            case machines.InRegister():
                return set(range(self.machine.cpus))
        return {self.home(operand)} - {None}

    def home(self, thread):
        return self.machine.cpu(thread) if thread in self.machine.threads else None

    def waits(self, block, cpu):
        """Whether a thread's undecided send, or its undone order, goes to that processor."""
        sends = block.send and self.home(block.send.destination) == cpu
        return sends or block.phase is Phase.ORDERING and self.home(block.context.instruction().target) == cpu

    def posts(self, block, cpu):
        """Whether a thread's own processor may post to that one by it."""
        if block.send and self.home(block.send.destination) == cpu:
            return True
        if block.thread in self.deletable and block.untold <= cpu:
            return True
        return not block.deleted and self.is_aimed(block, cpu)

    def is_aimed(self, block, cpu):
        place = block.context.place + (block.phase is Phase.ORDERING)
        aims = self.aims[block.thread]
        found = aims[place] if place < len(aims) else ()
        return cpu in found or machines.LAST in found and self.home(block.context.last) == cpu

    def may_post(self, walk, poster, to):
        return (
            self.propagates
            or any(self.waits(block, poster) for block in walk.processors[to].own.values())
            or any(self.posts(block, to) for block in walk.processors[poster].own.values())
        )

    def closed(self, walk, cpu):
        """The smallest set with a processor and with all who may post to it on an empty way."""
        found, left = {cpu}, [cpu]
        while left:
            to = left.pop()
            for poster in range(self.machine.cpus):
                if poster not in found and not walk.mail[to][poster] and self.may_post(walk, poster, to):
                    found.add(poster)
                    left.append(poster)
        return found

    def chosen(self, walk):
        """The choices of such a set with the fewest: of several the one that the lowest processor begins."""
        choices = list(walk.choices())
        each = [[choice for choice in choices if choice.cpu in self.closed(walk, cpu)] for cpu in sorted({choice.cpu for choice in choices})]
        return min(each, key=len, default=[])


class All:
    """The choices of all processors."""

    def chosen(self, walk):
        return walk.choices()

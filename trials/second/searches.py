"""A search in breadth of the core runs of a machine whose ticks go to least deadlines: the states that they lead to, each once, with the first schedule of
choices that leads there. The choices are all, or those of persistent sets (sets.py), which lead to all endings. States are told apart by all that processors know and by the letters under way, but by no stamp and
by no number of a send. Of a deadline they tell how far it is ahead, and else not how late it is."""

import dataclasses

from second import machines
from second.processors import Done, Gone, OrderDone, Ordered, OwnTurn, Posted, Processor, Replay, Retarget, TakeLetter, Tick, Withdraw
from second.threads import Phase


class Watched(Processor):
    """A processor that also keeps what the search tells states apart by and nothing else asks for."""

    def __init__(self, machine, cpu):
        super().__init__(machine, cpu)
        # The threads whose send was to be cancelled while it was at another processor: it is asked back, and its thread hears of it in any case.
        self.asked_back = set()

    def cancel(self, block, bits):
        if "S" in bits and block.away:
            self.asked_back.add(block.thread)
        super().cancel(block, bits)

    def end_send(self, block, decision):
        self.asked_back.discard(block.thread)
        super().end_send(block, decision)

    def code(self):
        return (
            tuple(map(self.block_code, self.own.values())),
            tuple(tuple(map(waiting_code, waiting)) for waiting in self.waiting.values()),
            tuple(self.ready),
            tuple((max(deadline - self.clock, 0), *armed) for deadline, *armed in self.deadlines),
            tuple(sorted(self.gone)),
            tuple(sorted(self.asked_back)),
        )

    def block_code(self, block):
        context = block.context
        registers = (tuple(context.registers), int(context.error), context.last, context.actual, context.place)
        return registers, self.phase_code(block), send_code(block.send), block.send_wish, block.receive_wish, block.untold, owed_code(block.owed)

    def phase_code(self, block):
        """A deleted thread has no phase any more."""
        if block.deleted:
            return machines.DELETE
        if block.phase is Phase.RECEIVING:
            return block.phase.value, block.source
        return block.phase.value


def owed_code(owed):
    return owed and owed._replace(name=owed.name.thread)


def message_code(send):
    return send.name.thread, send.destination, send.label, send.message, send.propagated, send.shown


def waiting_code(send):
    """A send that waits at its receiver, as the receiver's processor knows it."""
    return message_code(send), send.period == 0


def send_code(send):
    """A send as its own processor knows it."""
    return send and (message_code(send), send.period, send.source, send.receive_period)


def letter_code(letter):
    match letter:
        case Posted(send):
            return "send", waiting_code(send)
        case Done(name, decision):
            return "done", name.thread, decision.value
        case Withdraw(name, receiver, why):
            return "withdraw", name.thread, receiver, why.value
        case Gone(thread):
            return "gone", thread
        case Ordered(caller, target, what):
            return "order", caller, target, what
        case OrderDone(caller):
            return "order done", caller
        case Retarget(owed):
            return "retarget", owed_code(owed)
    raise ValueError(letter)


class Walk(Replay):
    """A replay of choices."""

    def __init__(self, machine):
        super().__init__(machine)
        self.processors = [Watched(machine, cpu) for cpu in range(machine.cpus)]

    def code(self):
        mail = tuple(tuple(tuple(map(letter_code, letters)) for letters in to) for to in self.mail)
        return tuple(processor.code() for processor in self.processors), mail

    def is_at_rest(self):
        return not any(map(any, self.mail)) and super().is_at_rest()

    def choices(self):
        """What may happen next, of each processor in order: the first letter of each poster, what it does by itself, and the tick to its least deadline."""
        for processor in self.processors:
            for poster, letters in enumerate(self.mail[processor.cpu]):
                if letters:
                    yield TakeLetter(processor.cpu, poster)
            if processor.work():
                yield OwnTurn(processor.cpu)
            if processor.can_tick():
                yield Tick(processor.cpu)


@dataclasses.dataclass(frozen=True)
class State:
    """A state that was found, by the choices that lead there."""

    choices: tuple
    is_ending: bool


@dataclasses.dataclass(frozen=True)
class Search:
    """The states in the order of their schedules, how deep all were found, and whether there are no more."""

    states: list
    depth: int
    is_whole: bool

    def endings(self):
        return [state for state in self.states if state.is_ending]


def walk(machine, choices):
    done = Walk(machine)
    for choice in choices:
        done.take(choice)
    return done


def search(machine, depth, most, chooser):
    """Ends where a state is as deep as this, or where there is one state more than these."""
    opening = Walk(machine)
    codes, states = {opening.code()}, [State((), opening.is_at_rest())]
    for state in states:
        if len(state.choices) >= depth:
            return Search(states, depth, False)
        for choice in chooser.chosen(walk(machine, state.choices)):
            choices = (*state.choices, choice)
            after = walk(machine, choices)
            code = after.code()
            if code in codes:
                continue
            if len(states) >= most:
                return Search(states, len(state.choices), False)
            codes.add(code)
            states.append(State(choices, after.is_at_rest()))
    return Search(states, len(states[-1].choices), True)

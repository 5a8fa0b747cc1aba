"""What processors do: each has its own threads, clock and deadlines, and tells the others by letters. Only the receiver's decides a send."""

import bisect
import collections
import dataclasses
import enum
import functools

from second import machines, threads, words
from second.threads import Context, Name, Owed, Phase, Send
from second.traces import LAST_CLOCK
from second.words import ErrorCode


class Decision(enum.Enum):
    """How a send is decided, by the verb of the step that decides it."""

    DELIVERED = "deliver"
    TIMED_OUT = "stimeout"
    NOBODY = "snobody"
    CANCELLED = "scancel"
    DROPPED = "drop"


REFUSALS = {
    Decision.TIMED_OUT: ErrorCode.SEND_TIMEOUT,
    Decision.NOBODY: ErrorCode.SEND_NOBODY,
    Decision.CANCELLED: ErrorCode.SEND_CANCELLED,
}


@dataclasses.dataclass(frozen=True)
class Posted:
    """A send goes to its receiver's processor."""

    send: Send


@dataclasses.dataclass(frozen=True)
class Done:
    """A send was decided there."""

    name: Name
    decision: Decision


@dataclasses.dataclass(frozen=True)
class Withdraw:
    """A send is to be given back, if it still waits, and this is why."""

    name: Name
    receiver: int
    why: Decision


@dataclasses.dataclass(frozen=True)
class Gone:
    """A thread is deleted."""

    thread: int


@dataclasses.dataclass(frozen=True)
class Ordered:
    """An order is about a thread of the processor that this goes to."""

    caller: int
    target: int
    what: str


@dataclasses.dataclass(frozen=True)
class OrderDone:
    caller: int


@dataclasses.dataclass(frozen=True)
class Retarget:
    """An originator is to turn."""

    owed: Owed


@dataclasses.dataclass(eq=False)
class Block:
    """A thread as its own processor has it."""

    context: Context
    phase: Phase = Phase.READY
    deleted: bool = False
    # The undecided send, and whether it was posted to another processor.
    send: Send | None = None
    away: bool = False
    # Its send phase, or its receive phase, is to be cancelled.
    send_wish: bool = False
    receive_wish: bool = False
    source: int = words.NIL
    # The lowest processor that was not told of the deletion.
    untold: int = 0
    # What an originator of this processor owes since this thread received a message.
    owed: Owed | None = None

    @property
    def thread(self):
        return self.context.thread


class Processor:
    def __init__(self, machine, cpu):
        self.machine = machine
        self.cpu = cpu
        self.own = {thread: Block(Context(machine, declared)) for thread, declared in machine.threads.items() if declared.cpu == cpu}
        self.waiting = {thread: [] for thread in self.own}
        self.ready = list(self.own)
        # Pairs of a clock and a thread, the least clock first, and equal ones in the order in which they were armed.
        self.deadlines = []
        self.clock = 0
        self.gone = set()
        # How many retargets have turned an originator.
        self.turned = 0
        self.steps = []
        self.letters = []

    def tell(self, *step):
        self.steps.append(step)

    def post(self, cpu, letter):
        self.letters.append((cpu, letter))

    def event(self):
        """The steps told and the letters posted since the last event."""
        done = self.steps, self.letters
        self.steps, self.letters = [], []
        return done

    # Deadlines.

    def arm(self, block, period):
        bisect.insort_right(self.deadlines, (self.clock + period, block.thread), key=lambda deadline: deadline[0])

    def disarm(self, block):
        self.deadlines = [deadline for deadline in self.deadlines if deadline[1] != block.thread]

    def is_due(self):
        return bool(self.deadlines) and self.least_deadline() <= self.clock

    def least_deadline(self):
        return self.deadlines[0][0]

    def can_tick(self):
        return bool(self.deadlines) and self.clock < self.least_deadline() <= LAST_CLOCK

    # How phases begin and end.

    def make_ready(self, block):
        block.phase = Phase.READY
        self.ready.append(block.thread)

    def begin_receive(self, block, source, period):
        block.phase = Phase.RECEIVING
        block.source = source
        if period is not None:
            self.arm(block, period)

    def end_ipc(self, block):
        block.receive_wish = False
        self.make_ready(block)

    def end_receive(self, verb, block, code):
        self.tell(verb, block.thread)
        self.disarm(block)
        block.context.fail(code)
        self.end_ipc(block)

    def end_send(self, block, decision):
        """A thread of this processor hears how its send was decided."""
        send = block.send
        block.send, block.away, block.send_wish = None, False, False
        self.disarm(block)
        if block.deleted:
            return
        if decision is Decision.DELIVERED and send.is_call:
            self.begin_receive(block, send.source, send.receive_period)
            return
        if decision is Decision.DELIVERED:
            block.context.end_well()
        else:
            block.context.fail(REFUSALS[decision])
        self.end_ipc(block)

    def end_order(self, block):
        if not block.deleted:
            block.context.end_order()
            self.make_ready(block)

    # Decisions of sends.

    def first_accepted(self, block):
        accepted = (send for send in self.waiting[block.thread] if threads.accepts(self.machine, block.thread, block.source, send))
        return next(accepted, None)

    def may_refuse(self, block, send):
        """Whether a send of time zero is refused at this receiver. It is not at one that would receive it, nor at one in the send phase of a call to
        another processor that would receive it then, since it can't be known here whether that call was decided."""
        if block.phase is Phase.RECEIVING:
            return not threads.accepts(self.machine, block.thread, block.source, send)
        calls_away = block.away and block.send.is_call
        return not (calls_away and threads.accepts(self.machine, block.thread, block.send.source, send))

    def decide(self, send, decision):
        """The send waits no longer, and its sender hears of it."""
        waiting = self.waiting.get(send.destination, [])
        if send in waiting:
            waiting.remove(send)
        if send.actual in self.own:
            self.end_send(self.own[send.actual], decision)
        else:
            self.post(self.machine.cpu(send.actual), Done(send.name, decision))

    def refuse(self, send, decision):
        self.tell(decision.value, send.name)
        self.decide(send, decision)

    def deliver(self, block, send):
        tag = threads.received_tag(self.machine, send)
        self.tell("deliver", send.name, block.thread, send.shown, send.actual, tag, send.message)
        block.context.receive(send, tag)
        self.disarm(block)
        self.end_ipc(block)
        self.decide(send, Decision.DELIVERED)
        owed = threads.owed_by(self.machine, send)
        if owed:
            self.owe(block, owed)

    # Retargets.

    def owe(self, receiver, owed):
        """The originator turns by a duty of the receiver, or where it has another processor, by a letter."""
        if owed.originator in self.own:
            receiver.owed = owed
        else:
            self.post(self.machine.cpu(owed.originator), Retarget(owed))

    def retarget(self, owed):
        self.tell("retarget", owed.name)
        originator = self.own[owed.originator]
        phase = None if originator.deleted else originator.phase
        if phase is Phase.RECEIVING and originator.source == owed.old_partner:
            originator.source = owed.new_partner
            self.turned += 1
        elif phase is Phase.SENDING and originator.send.source == owed.old_partner:
            originator.send.source = owed.new_partner
            self.turned += 1

    def retarget_for(self, receiver):
        owed, receiver.owed = receiver.owed, None
        self.retarget(owed)

    def arrive(self, send):
        """A send has come to the processor of its receiver."""
        block = self.own[send.destination]
        if block.deleted:
            self.refuse(send, Decision.NOBODY)
        elif send.period == 0 and self.may_refuse(block, send):
            self.refuse(send, Decision.TIMED_OUT)
        else:
            self.tell("queue", send.name)
            self.waiting[block.thread].append(send)
            if block.phase is Phase.RECEIVING and self.first_accepted(block) is send:
                self.deliver(block, send)

    # Orders.

    def withdraw(self, block, why):
        send = block.send
        self.post(self.machine.cpu(send.destination), Withdraw(send.name, send.destination, why))

    def obey(self, caller, target, what):
        block = self.own[target]
        self.tell("obey", caller)
        if block.deleted:
            return
        if what == machines.DELETE:
            self.delete(block)
        else:
            self.cancel(block, what)

    def delete(self, block):
        block.deleted = True
        block.receive_wish = False
        self.disarm(block)
        self.ready = [thread for thread in self.ready if thread != block.thread]
        if block.away:
            self.withdraw(block, Decision.DROPPED)

    def cancel(self, block, bits):
        """A phase is to be cancelled where the thread is in it, a receive phase also where it is to follow. Else nothing comes of it."""
        sending = block.phase is Phase.SENDING
        if "S" in bits and block.away:
            self.withdraw(block, Decision.CANCELLED)
        elif "S" in bits and sending:
            block.send_wish = True
        if "R" in bits and (block.phase is Phase.RECEIVING or sending and block.send.is_call):
            block.receive_wish = True

    # Turns.

    def duties(self):
        """What is to be done for the own threads before any instruction runs, in the order in which it is tried, each as something to call."""
        for block in self.own.values():
            if block.owed:
                yield functools.partial(self.retarget_for, block)
            if block.deleted:
                yield from self.duties_of_deleted(block)
                continue
            if block.send_wish:
                yield functools.partial(self.refuse, block.send, Decision.CANCELLED)
            if block.phase is Phase.RECEIVING:
                yield from self.duties_of_receiver(block)
            for send in self.waiting[block.thread]:
                if send.period == 0 and self.may_refuse(block, send):
                    yield functools.partial(self.refuse, send, Decision.TIMED_OUT)

    def duties_of_deleted(self, block):
        if block.send and not block.away:
            yield functools.partial(self.refuse, block.send, Decision.DROPPED)
        if self.waiting[block.thread]:
            yield functools.partial(self.refuse, self.waiting[block.thread][0], Decision.NOBODY)
        if self.next_untold(block) < self.machine.cpus:
            yield functools.partial(self.tell_deletion, block)

    def duties_of_receiver(self, block):
        if block.receive_wish:
            yield functools.partial(self.end_receive, "rcancel", block, ErrorCode.RECEIVE_CANCELLED)
        send = self.first_accepted(block)
        if send:
            yield functools.partial(self.deliver, block, send)
        if self.is_nobody(block.source):
            yield functools.partial(self.end_receive, "rnobody", block, ErrorCode.RECEIVE_NOBODY)

    def next_untold(self, block):
        return block.untold + 1 if block.untold == self.cpu else block.untold

    def tell_deletion(self, block):
        cpu = self.next_untold(block)
        self.post(cpu, Gone(block.thread))
        block.untold = cpu + 1

    def is_nobody(self, source):
        """Whether it is known here that nobody is named by the source of a receive phase."""
        if words.is_local(source):
            return True
        deleted = source in self.gone or source in self.own and self.own[source].deleted
        return words.is_global(source) and (source not in self.machine.threads or deleted)

    def time_out(self):
        """The phase with the least deadline is over. A send that was posted to another processor is asked back from there."""
        _, thread = self.deadlines.pop(0)
        block = self.own[thread]
        if block.phase is Phase.RECEIVING:
            self.end_receive("rtimeout", block, ErrorCode.RECEIVE_TIMEOUT)
        elif block.away:
            self.withdraw(block, Decision.TIMED_OUT)
        else:
            self.refuse(block.send, Decision.TIMED_OUT)

    def run(self):
        """One instruction of the thread that has been ready longest."""
        block = self.own[self.ready.pop(0)]
        context = block.context
        if threads.concerns_nobody_else(self.machine, context):
            self.tell("local", block.thread)
            if context.run():
                block.phase = Phase.ENDED
            else:
                self.ready.append(block.thread)
            return
        match context.instruction():
            case machines.Order(target, what):
                self.order(block, target, what)
            case machines.Ipc() as ipc if ipc.to == words.NIL:
                self.tell("wait", block.thread)
                context.place += 1
                self.begin_receive(block, ipc.source, ipc.receive_period)
            case machines.Ipc():
                self.begin_send(block)

    def order(self, block, target, what):
        block.phase = Phase.ORDERING
        self.tell("order", block.thread, target, what)
        if target in self.own:
            self.obey(block.thread, target, what)
            self.end_order(block)
        else:
            self.post(self.machine.cpu(target), Ordered(block.thread, target, what))

    def begin_send(self, block):
        send = threads.begin(self.machine, block.context, self.clock)
        block.send = send
        block.phase = Phase.SENDING
        self.tell("begin", send.name)
        if send.destination not in self.machine.threads:
            self.refuse(send, Decision.NOBODY)
            return
        if send.period:
            self.arm(block, send.period)
        if send.destination in self.own:
            self.arrive(send)
        else:
            block.away = True
            self.post(self.machine.cpu(send.destination), Posted(send))

    def work(self):
        """What a turn without a letter does, as something to call, or nothing."""
        duty = next(self.duties(), None)
        if duty:
            return duty
        if self.is_due():
            return self.time_out
        return self.run if self.ready else None

    def handle(self, letter):
        match letter:
            case Posted(send):
                self.arrive(send)
            case Done(name, decision):
                self.end_send(self.own[name.thread], decision)
            case Withdraw(name, receiver, why):
                for send in [send for send in self.waiting[receiver] if send.name == name]:
                    self.refuse(send, why)
            case Gone(thread):
                self.gone.add(thread)
            case Ordered(caller, target, what):
                self.obey(caller, target, what)
                self.post(self.machine.cpu(caller), OrderDone(caller))
            case OrderDone(caller):
                self.end_order(self.own[caller])
            case Retarget(owed):
                self.retarget(owed)


# The entries of a schedule. Where what one asks for can't be done, it has no event.


@dataclasses.dataclass(frozen=True)
class Turn:
    """A turn of a processor: mail first, else what it does by itself."""

    cpu: int

    def __str__(self):
        return f"{self.cpu}"


@dataclasses.dataclass(frozen=True)
class Tick:
    """The clock of a processor goes on to its least deadline."""

    cpu: int

    def __str__(self):
        return f"t{self.cpu}"


@dataclasses.dataclass(frozen=True)
class TakeLetter:
    """A processor handles the first letter of one poster."""

    cpu: int
    poster: int

    def __str__(self):
        return f"{self.cpu}:{self.poster}"


@dataclasses.dataclass(frozen=True)
class OwnTurn:
    """A processor does what it does by itself, though mail may be there."""

    cpu: int

    def __str__(self):
        return f"c{self.cpu}"


@dataclasses.dataclass(frozen=True)
class TickTo:
    """The clock of a processor goes on to a value."""

    cpu: int
    clock: int

    def __str__(self):
        return f"t{self.cpu}:{self.clock}"


class Replay:
    """All processors of a machine, and their mail by who it goes to and who has posted it."""

    def __init__(self, machine):
        self.processors = [Processor(machine, cpu) for cpu in range(machine.cpus)]
        self.mail = [[collections.deque() for _ in self.processors] for _ in self.processors]
        self.history = []

    def turned(self):
        """How many retargets have turned an originator."""
        return sum(processor.turned for processor in self.processors)

    def has_mail(self, cpu):
        return any(self.mail[cpu])

    def is_busy(self, cpu):
        return self.has_mail(cpu) or self.processors[cpu].work() is not None

    def is_at_rest(self):
        return not any(self.is_busy(processor.cpu) or processor.deadlines for processor in self.processors)

    def take(self, entry):
        processor = self.processors[entry.cpu]
        match entry:
            case Turn():
                self.turn(processor)
            case Tick() if processor.can_tick():
                self.tick(processor, processor.least_deadline())
            case TakeLetter(_, poster) if self.mail[processor.cpu][poster]:
                self.handle(processor, self.mail[processor.cpu][poster])
            case OwnTurn():
                self.own_turn(processor)
            case TickTo(_, clock) if processor.clock < clock <= LAST_CLOCK:
                self.tick(processor, clock)

    def go_on(self, turns):
        """Goes on in rounds of a turn of each processor, rising, until so many turns are used up or nothing goes on. A tick is a turn. Answers the
        entries by which a replay does the same."""
        entries = []
        while turns > len(entries):
            done = self.round() or self.all_ticks()
            if not done:
                break
            entries += done
        return entries

    def round(self):
        """A turn of each processor, by the letters that are there when it comes to it. Answers the turns of those that had something to do."""
        done = []
        for processor in self.processors:
            if self.is_busy(processor.cpu):
                self.turn(processor)
                done.append(Turn(processor.cpu))
        return done

    def all_ticks(self):
        """Each clock below the least deadline of all goes on to it. Answers their ticks."""
        least = min((processor.least_deadline() for processor in self.processors if processor.deadlines), default=0)
        late = [processor for processor in self.processors if processor.clock < least <= LAST_CLOCK]
        for processor in late:
            self.tick(processor, least)
        return [TickTo(processor.cpu, least) for processor in late]

    def tick(self, processor, clock):
        processor.clock = clock
        self.history.append(("tick", processor.cpu, clock))

    def turn(self, processor):
        """Of several processors that have sent some, the mail of the lowest one is handled first."""
        mail = next(filter(None, self.mail[processor.cpu]), None)
        if mail:
            self.handle(processor, mail)
        else:
            self.own_turn(processor)

    def handle(self, processor, mail):
        processor.handle(mail.popleft())
        self.end_event(processor)

    def own_turn(self, processor):
        work = processor.work()
        if work:
            work()
        self.end_event(processor)

    def end_event(self, processor):
        steps, letters = processor.event()
        self.history += steps
        for cpu, letter in letters:
            self.mail[cpu][processor.cpu].append(letter)

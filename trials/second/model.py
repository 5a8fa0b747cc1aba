"""Which steps are possible at a world, and what they make of it: judges traces without any processor, letter or order of turns."""

import copy
import dataclasses

from second import machines, threads, traces, words
from second.threads import Context, Name, Phase, Send
from second.words import ErrorCode

DELETED = "deleted"
QUIET, SPENT = "quiet", "spent"


class Refused(Exception):
    """The number of the first step, counted from 1, that is not possible."""

    def __init__(self, step):
        super().__init__(step)
        self.step = step


class Impossible(Exception):
    """A step is not possible at a world."""


def need(condition):
    if not condition:
        raise Impossible


@dataclasses.dataclass(eq=False)
class Member:
    """A thread of a world. Of a receive phase it has the source, the clock of its beginning and the period."""

    context: Context
    alive: bool = True
    phase: Phase = Phase.READY
    send: Send | None = None
    order: machines.Order | None = None
    source: int = words.NIL
    since: int = 0
    period: int | None = None
    receive_wish: bool = False
    waiting: list = dataclasses.field(default_factory=list)

    def state(self):
        """What a report says that it is about."""
        return self.phase.value if self.alive else DELETED

    def receives(self):
        return self.alive and self.phase is Phase.RECEIVING

    def begin_receive(self, source, since, period):
        self.phase = Phase.RECEIVING
        self.source, self.since, self.period = source, since, period

    def fail(self, code):
        """The ipc has failed. A deleted thread gets no code."""
        self.receive_wish = False
        if self.alive:
            self.context.fail(code)
            self.phase = Phase.READY


def late(_thread):
    """A clock that can't go on."""
    return traces.LAST_CLOCK


class World:
    def __init__(self, machine):
        self.machine = machine
        self.members = {thread: Member(Context(machine, declared)) for thread, declared in machine.threads.items()}
        # The undecided sends by their names, in order of beginning, and those of them that are to be cancelled.
        self.sends = {}
        self.send_wishes = set()
        # The owed retargets by their names.
        self.owed = {}
        self.clocks = [0] * machine.cpus

    def member(self, thread):
        need(thread in self.members)
        return self.members[thread]

    def clock(self, thread):
        return self.clocks[self.machine.cpu(thread)]

    def is_nobody(self, thread):
        return thread not in self.members or not self.members[thread].alive

    def waits(self, name):
        if name not in self.sends:
            return False
        receiver = self.members.get(self.sends[name].destination)
        return receiver is not None and name in receiver.waiting

    def first_accepted(self, thread):
        """The first name in the list of a receiving thread that it accepts."""
        member = self.members[thread]
        accepted = (name for name in member.waiting if threads.accepts(self.machine, thread, member.source, self.sends[name]))
        return next(accepted, None)

    def must_wait(self, name):
        """Whether a send must wait since its receiver may not have turned to the sender yet."""
        destination = self.sends[name].destination
        return any(owed.originator == destination and owed.new_partner == name.thread for owed in self.owed.values())

    def receives_from_none(self, thread):
        """Whether a thread is receiving, and nobody whom it accepts waits at it."""
        return thread in self.members and self.members[thread].receives() and self.first_accepted(thread) is None

    def told(self, name):
        """What the delivery of a send tells besides its name: receiver, senders, tag and words."""
        send = self.sends[name]
        return send.destination, send.shown, send.actual, threads.received_tag(self.machine, send), send.message

    # Whether steps are possible. The clock of a thread is asked of a function.

    def can_queue(self, name):
        if name not in self.sends or self.waits(name) or self.must_wait(name):
            return False
        return not self.is_nobody(self.sends[name].destination)

    def can_deliver(self, name):
        if not self.waits(name):
            return False
        receiver = self.sends[name].destination
        return self.members[receiver].receives() and self.first_accepted(receiver) == name

    def can_stimeout(self, name, clock):
        return name in self.sends and not self.must_wait(name) and self.is_timed_out(name, clock)

    def is_timed_out(self, name, clock):
        """Whether the time of an undecided send is over, and it may be refused for that."""
        send = self.sends[name]
        if send.period is None or clock(name.thread) < send.begun + send.period:
            return False
        return self.waits(name) if send.period else self.may_refuse(send)

    def may_refuse(self, send):
        """Whether a send of time zero may be refused: its receiver neither accepts it now nor is in the send phase of a call to a declared thread of
        another processor whose receive phase would accept it."""
        receiver = send.destination
        if self.is_nobody(receiver):
            return False
        member = self.members[receiver]
        if member.phase is Phase.RECEIVING:
            return not threads.accepts(self.machine, receiver, member.source, send)
        call = member.send
        if member.phase is not Phase.SENDING or not call.is_call or call.destination not in self.members:
            return True
        return self.machine.cpu(call.destination) == self.machine.cpu(receiver) or not threads.accepts(self.machine, receiver, call.source, send)

    def can_snobody(self, name):
        return name in self.sends and not self.must_wait(name) and self.is_nobody(self.sends[name].destination)

    def can_scancel(self, name):
        return name in self.send_wishes and self.waits(name)

    def can_drop(self, name):
        return self.waits(name) and not self.members[name.thread].alive

    def can_rtimeout(self, thread, clock):
        return self.receives_from_none(thread) and self.has_passed(thread, clock)

    def has_passed(self, thread, clock):
        """Whether the time of a receive phase is over."""
        member = self.members[thread]
        return member.period is not None and clock(thread) >= member.since + member.period

    def can_rnobody(self, thread):
        return self.receives_from_none(thread) and self.is_closed_for_nobody(thread)

    def is_closed_for_nobody(self, thread):
        """Whether a receive phase is closed for an id that nobody has."""
        source = self.members[thread].source
        return words.is_local(source) or words.is_global(source) and self.is_nobody(source)

    def can_rcancel(self, thread):
        return thread in self.members and self.members[thread].receives() and self.members[thread].receive_wish

    # What steps do. Each has its verb behind `do_` in its name.

    def take(self, verb, *fields):
        getattr(self, f"do_{verb}")(*fields)

    def decide(self, name):
        """A send waits no longer, and no wish to cancel it is left."""
        send = self.sends.pop(name)
        receiver = self.members.get(send.destination)
        if receiver is not None and name in receiver.waiting:
            receiver.waiting.remove(name)
        self.send_wishes.discard(name)
        self.members[name.thread].send = None
        return send

    def refuse(self, name, code):
        self.decide(name)
        self.members[name.thread].fail(code)

    def do_local(self, thread):
        member = self.member(thread)
        need(member.phase is Phase.READY and member.alive and threads.concerns_nobody_else(self.machine, member.context))
        if member.context.run():
            member.phase = Phase.ENDED

    def ready_ipc(self, thread):
        """A thread that is ready at an ipc, with this and its destination."""
        member = self.member(thread)
        ipc = member.context.instruction()
        need(member.phase is Phase.READY and member.alive and isinstance(ipc, machines.Ipc))
        return member, ipc, ipc.to

    def do_begin(self, name):
        member, _, destination = self.ready_ipc(name.thread)
        need(destination != words.NIL and name.number == member.context.begun + 1)
        member.send = self.sends[name] = threads.begin(self.machine, member.context, self.clock(name.thread))
        member.phase = Phase.SENDING

    def do_queue(self, name):
        need(self.can_queue(name))
        self.members[self.sends[name].destination].waiting.append(name)

    def do_deliver(self, name, *said):
        need(self.can_deliver(name))
        send = self.sends[name]
        told = self.told(name)
        need(said == told)
        *_, tag, _ = told
        receiver, sender = self.members[send.destination], self.members[name.thread]
        receiver.context.receive(send, tag)
        receiver.phase = Phase.READY
        receiver.receive_wish = False
        self.decide(name)
        owed = threads.owed_by(self.machine, send)
        if owed:
            self.owed[name] = owed
        if not sender.alive:
            return
        if send.is_call:
            sender.begin_receive(send.source, self.clock(name.thread), send.receive_period)
            return
        sender.context.end_well()
        sender.receive_wish = False
        sender.phase = Phase.READY

    def do_wait(self, thread):
        member, ipc, destination = self.ready_ipc(thread)
        need(destination == words.NIL and ipc.source != words.NIL)
        member.context.place += 1
        member.begin_receive(ipc.source, self.clock(thread), ipc.receive_period)

    def do_stimeout(self, name):
        need(self.can_stimeout(name, self.clock))
        self.refuse(name, ErrorCode.SEND_TIMEOUT)

    def do_snobody(self, name):
        need(self.can_snobody(name))
        self.refuse(name, ErrorCode.SEND_NOBODY)

    def do_scancel(self, name):
        need(self.can_scancel(name))
        self.refuse(name, ErrorCode.SEND_CANCELLED)

    def do_drop(self, name):
        need(self.can_drop(name))
        self.decide(name)

    def do_rtimeout(self, thread):
        need(self.can_rtimeout(thread, self.clock))
        self.members[thread].fail(ErrorCode.RECEIVE_TIMEOUT)

    def do_rnobody(self, thread):
        need(self.can_rnobody(thread))
        self.members[thread].fail(ErrorCode.RECEIVE_NOBODY)

    def do_rcancel(self, thread):
        need(self.can_rcancel(thread))
        self.members[thread].fail(ErrorCode.RECEIVE_CANCELLED)

    def do_order(self, caller, target, what):
        member = self.member(caller)
        order = machines.Order(target, what)
        need(member.phase is Phase.READY and member.alive and member.context.instruction() == order)
        need(threads.is_admitted(self.machine, member.context, order))
        member.phase = Phase.ORDERING
        member.order = order

    def do_obey(self, caller):
        member = self.member(caller)
        need(member.order is not None)
        order, member.order = member.order, None
        target = self.members[order.target]
        if target.alive and order.what == machines.DELETE:
            target.alive = False
            target.receive_wish = False
        elif target.alive:
            self.cancel(target, order.what)
        if member.alive:
            member.context.end_order()
            member.phase = Phase.READY

    def cancel(self, target, bits):
        """A wish is left where the target is in the phase, or where a receive phase is to follow. Else nothing comes of it."""
        sending = target.phase is Phase.SENDING
        if "S" in bits and sending:
            self.send_wishes.add(target.send.name)
        if "R" in bits and (target.phase is Phase.RECEIVING or sending and target.send.is_call):
            target.receive_wish = True

    def do_retarget(self, name):
        need(name in self.owed)
        owed = self.owed.pop(name)
        originator = self.members[owed.originator]
        phase = originator.phase if originator.alive else None
        if phase is Phase.RECEIVING and originator.source == owed.old_partner:
            originator.source = owed.new_partner
        elif phase is Phase.SENDING and originator.send.source == owed.old_partner:
            originator.send.source = owed.new_partner

    def do_tick(self, cpu, clock):
        need(cpu < self.machine.cpus and clock > self.clocks[cpu])
        self.clocks[cpu] = clock

    # Which steps are possible.

    def copy(self):
        """Another world of the same machine, in which all is as it is here."""
        shared = [self.machine, self.machine.format, *self.machine.threads.values()]
        return copy.deepcopy(self, {id(part): part for part in shared})

    def is_possible(self, step):
        """Whether a copy of the world takes a step."""
        try:
            self.copy().take(*step)
        except Impossible:
            return False
        return True

    def candidates(self, thread):
        """The steps but ticks that a thread may be in for, in the order of the table of steps."""
        context = self.members[thread].context
        last, instruction = Name(thread, context.begun), context.instruction()
        yield "local", thread
        yield "begin", Name(thread, context.begun + 1)
        yield "queue", last
        if self.waits(last):
            yield "deliver", last, *self.told(last)
        yield "wait", thread
        yield "stimeout", last
        yield "rtimeout", thread
        yield "snobody", last
        yield "rnobody", thread
        yield "scancel", last
        yield "rcancel", thread
        yield "drop", last
        if isinstance(instruction, machines.Order):
            yield "order", thread, instruction.target, instruction.what
        yield "obey", thread
        own = (owed for owed in self.owed.values() if owed.originator == thread)
        yield from (("retarget", owed.name) for owed in own)

    def possible(self):
        """Every step but ticks that is possible, in order of declaration of threads, then of the
        table of steps. A retarget is its originator's."""
        candidates = (step for thread in self.members for step in self.candidates(thread))
        return [step for step in candidates if self.is_possible(step)]

    # What is said of a world.

    def is_still(self):
        """Whether no step but a tick is possible, now or after any ticks. What is owed can be done at any time."""
        if self.owed:
            return False
        if any(member.order is not None or member.alive and member.phase is Phase.READY for member in self.members.values()):
            return False
        decisions = (self.can_queue, self.can_deliver, self.can_snobody, self.can_scancel, self.can_drop)
        if any(can(name) for name in self.sends for can in decisions) or any(self.can_stimeout(name, late) for name in self.sends):
            return False
        return not any(self.can_rtimeout(thread, late) or self.can_rnobody(thread) or self.can_rcancel(thread) for thread in self.members)

    def report(self, at_rest):
        lines = [thread_line(member) for member in self.members.values()]
        lines += [f"waiting {name} {words.spelled(send.destination)}" for name, send in self.sends.items()]
        lines.append(f"ending {QUIET if at_rest else SPENT}")
        return "".join(line + "\n" for line in lines)


def thread_line(member):
    """The line of a report for a thread, with its registers up to the last that is not 0."""
    context = member.context
    last = max((register for register, word in enumerate(context.registers) if word), default=0)
    thread, shown, actual = map(words.spelled, (context.thread, context.last, context.actual))
    registers = " ".join(f"{word:x}" for word in context.registers[: last + 1])
    return f"thread {thread} {member.state()} {context.error:d} {shown} {actual} {registers}"


def world_of(machine, history):
    """The world that a history reaches."""
    world = World(machine)
    for number, step in enumerate(history, 1):
        try:
            world.take(*step)
        except Impossible:
            raise Refused(number) from None
    return world


def audit(machine, trace):
    """What is said of a trace, and the fault of one that is none."""
    try:
        history = traces.read(trace)
        world = world_of(machine, history)
    except traces.TraceFault as fault:
        return "", f"trace line {fault.line}"
    except Refused as fault:
        return "", f"refused at step {fault.step}"
    return f"passed {len(history)} {QUIET if world.is_still() else SPENT}\n", ""

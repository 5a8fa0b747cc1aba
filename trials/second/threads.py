"""What a thread has by itself, its registers and its place in its script, and the rules that ask nothing but these and the machine."""

import dataclasses
import enum
import typing

from second import machines, words
from second.words import ErrorCode

REGISTERS = 64


class Phase(enum.Enum):
    READY = "ready"
    SENDING = "sending"
    RECEIVING = "receiving"
    ORDERING = "ordering"
    ENDED = "ended"


class Name(typing.NamedTuple):
    """Of a send: the thread that began it, and the how manieth of this thread it is."""

    thread: int
    number: int

    def __str__(self):
        return f"{words.spelled(self.thread)}#{self.number}"


@dataclasses.dataclass(eq=False)
class Send:
    """What was fixed when a send began, with the receive phase of the same call: its source is nilthread where there is none."""

    name: Name
    destination: int
    label: int
    message: tuple
    propagated: bool
    shown: int
    period: int | None
    begun: int
    source: int
    receive_period: int | None

    @property
    def actual(self):
        return self.name.thread

    @property
    def is_call(self):
        return self.source != words.NIL


class Owed(typing.NamedTuple):
    """A retarget, named by a propagated send that was delivered: its originator is to wait for who received it, the new partner, where it waits for who sent
    it, the old one."""

    name: Name
    originator: int
    old_partner: int
    new_partner: int


class Context:
    """The registers of a thread, its place in its script and how many sends it began."""

    def __init__(self, machine, declaration):
        self.format = machine.format
        self.declaration = declaration
        self.thread = declaration.thread
        self.registers = [0] * REGISTERS
        self.error = ErrorCode.NONE
        self.last = words.NIL
        self.actual = words.NIL
        self.place = 0
        self.begun = 0

    def instruction(self):
        """The instruction at hand, with the ids that it names as the registers are now."""
        return machines.named(self.declaration.instruction(self.place), self.id_from)

    def id_from(self, operand):
        match operand:
            case machines.LAST:
                return self.last
            case machines.InRegister(register):
                return self.format.identifier(self.registers[register])
        return operand

    def branches(self, instruction):
        """Whether an instruction goes on at the place that it names."""
        match instruction:
            case machines.Jump():
                return True
            case machines.OnError():
                return bool(self.error)
            case machines.OnLabel(label, _):
                return self.registers[0] >> words.LABEL_SHIFT == label
            case machines.OnWord(register, word, _):
                return self.registers[register] == word
            case machines.OnFrom(thread, _):
                return self.last == thread
        return False

    def run(self):
        """Runs an instruction that concerns nobody else. Answers whether the script has ended."""
        instruction = self.instruction()
        if isinstance(instruction, machines.End):
            return True
        self.take(instruction)
        self.place = instruction.place if self.branches(instruction) else self.place + 1
        return False

    def take(self, instruction):
        """The effect of an instruction, but for where the script goes on."""
        match instruction:
            case machines.Set(register, word):
                self.registers[register] = word
            case machines.Copy(register, source):
                self.registers[register] = self.registers[source]
            case machines.Add(register, word):
                self.registers[register] = self.registers[register] + word & self.format.mask
            case machines.From(register):
                self.registers[register] = self.format.word(self.last)
            case machines.Tag(word):
                self.registers[0] = word
            case machines.Virtual(thread):
                self.actual = thread
            case machines.Ipc():
                self.end_well()
            case machines.Order():
                self.error = ErrorCode.ORDER_REFUSED

    def end_well(self):
        """What an ipc leaves that ended well and received nothing."""
        self.registers[0] = 0
        self.last = words.NIL
        self.error = ErrorCode.NONE

    def fail(self, code):
        """What an ipc leaves that failed."""
        self.registers[0] = words.ERROR
        self.last = words.NIL
        self.error = code

    def receive(self, send, tag):
        """A message leaves alone the registers behind its last word."""
        self.registers[: len(send.message) + 1] = [tag, *send.message]
        self.last = send.shown
        self.actual = send.actual
        self.error = ErrorCode.NONE

    def end_order(self):
        self.error = ErrorCode.NONE
        self.place += 1


def begin(machine, context, clock):
    """Begins the send of the ipc that a thread is at, and fixes what it will bring."""
    ipc = context.instruction()
    space, tag, originator = context.declaration.space, context.registers[0], context.actual
    # Propagation is permitted where the originator is a declared thread of the sender's space; else the message is an ordinary one.
    propagated = bool(tag & words.PROPAGATED) and originator in machine.threads and machine.space(originator) == space
    send = Send(
        name=Name(context.thread, context.begun + 1),
        destination=ipc.to,
        label=tag >> words.LABEL_SHIFT,
        message=tuple(context.registers[1 : (tag & words.COUNT_MASK) + 1]),
        propagated=propagated,
        shown=originator if propagated else context.thread,
        period=ipc.send_period,
        begun=clock,
        source=ipc.source,
        receive_period=ipc.receive_period,
    )
    context.begun += 1
    context.place += 1
    return send


def received_tag(machine, send):
    """The tag that the receiver of a send gets. What counts as the other processor is that of the current sender, not the originator's."""
    across = machine.cpu(send.actual) != machine.cpu(send.destination)
    flags = (words.ACROSS if across else 0) | (words.PROPAGATED if send.propagated else 0)
    return send.label << words.LABEL_SHIFT | flags | len(send.message)


def owed_by(machine, send):
    """The retarget that the delivery of a send leaves owed, or nothing."""
    if machine.retargets() and send.propagated:
        return Owed(send.name, send.shown, send.actual, send.destination)
    return None


def accepts(machine, receiver, source, send):
    """Whether a receive phase from this source takes the send, by the sender that it shows."""
    if source == words.ANY_LOCAL:
        return machine.space(send.shown) == machine.space(receiver)
    return source in (words.ANY, send.shown)


def is_admitted(machine, context, order):
    """Any thread may delete a declared one; ExchangeRegisters is for those of the caller's space."""
    if order.target not in machine.threads:
        return False
    return order.what == machines.DELETE or machine.space(order.target) == context.declaration.space


def concerns_nobody_else(machine, context):
    """Whether the instruction that a thread is at has no phase and makes no order."""
    match context.instruction():
        case machines.Ipc() as ipc:
            return ipc.to == words.NIL and ipc.source == words.NIL
        case machines.Order() as order:
            return not is_admitted(machine, context, order)
    return True

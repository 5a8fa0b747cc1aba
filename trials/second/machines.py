"""Machines, and the reading of machine texts. The texts are lawful: that faulty ones are refused is not what is compared here."""

import dataclasses

from second import words

NEVER, ZERO = "never", "zero"
LAST = "last"
DELETE = "delete"
# The profile in which the originator of a message that was handed on waits for the thread that received it.
RETARGETING = 2
RAW_ID = "#"
NAMED_IDS = {"nil": words.NIL, "any": words.ANY, "anylocal": words.ANY_LOCAL}
HEXADECIMAL = "0x"
HEXADECIMAL_BASE = 16
COMMENT = ";"
# What a register begins with in the place of an id, and what ends the name of an instruction.
REGISTER = "mr"
LABEL_END = ":"
# So many microseconds, by what a time ends with.
UNITS = {"us": 1, "ms": 1000, "s": 1000000}


@dataclasses.dataclass(frozen=True)
class InRegister:
    """Stands for the id whose word this message register has."""

    register: int


@dataclasses.dataclass(frozen=True)
class Set:
    register: int
    word: int


@dataclasses.dataclass(frozen=True)
class Copy:
    register: int
    source: int


@dataclasses.dataclass(frozen=True)
class Add:
    register: int
    word: int


@dataclasses.dataclass(frozen=True)
class From:
    """Writes the word of the sender that was last received from."""

    register: int


@dataclasses.dataclass(frozen=True)
class Tag:
    word: int


@dataclasses.dataclass(frozen=True)
class Virtual:
    """Writes VirtualSender, which is one register with ActualSender."""

    thread: int | str | InRegister


@dataclasses.dataclass(frozen=True)
class Ipc:
    """The destination and the source are ids, LAST for the sender that was last received from, or in registers."""

    to: int | str | InRegister
    source: int | str | InRegister
    send_period: int | None
    receive_period: int | None


@dataclasses.dataclass(frozen=True)
class Order:
    """An ExchangeRegisters with these bits, or a deletion."""

    target: int | str | InRegister
    what: str


@dataclasses.dataclass(frozen=True)
class Jump:
    place: int


@dataclasses.dataclass(frozen=True)
class OnError:
    place: int


@dataclasses.dataclass(frozen=True)
class OnLabel:
    label: int
    place: int


@dataclasses.dataclass(frozen=True)
class OnWord:
    register: int
    word: int
    place: int


@dataclasses.dataclass(frozen=True)
class OnFrom:
    thread: int
    place: int


@dataclasses.dataclass(frozen=True)
class End:
    pass


@dataclasses.dataclass(frozen=True)
class Declaration:
    """A thread as the machine declares it."""

    thread: int
    cpu: int
    space: int
    script: list

    def instruction(self, place):
        """A place after the last instruction is an end."""
        return self.script[place] if place < len(self.script) else End()


@dataclasses.dataclass(frozen=True)
class Machine:
    """The profile, the format, the number of processors, and the threads by their ids, in order of declaration."""

    profile: int
    format: words.Format
    cpus: int
    threads: dict

    def retargets(self):
        return self.profile == RETARGETING

    def cpu(self, thread):
        return self.threads[thread].cpu

    def space(self, thread):
        return self.threads[thread].space


def number(word):
    return int(word, HEXADECIMAL_BASE) if word.startswith(HEXADECIMAL) else int(word)


class Reader:
    """What a text has said so far: its format, its names, and those of the instructions of the last script. The words of version 2 have their meaning only
    where the first line asks for it, which in lawful texts makes no difference."""

    def __init__(self, form):
        self.format = form
        self.names = {}

    def identifier(self, word):
        if word in self.names:
            return self.names[word]
        if word in NAMED_IDS:
            return NAMED_IDS[word]
        if word.startswith(RAW_ID):
            return self.format.identifier(int(word.removeprefix(RAW_ID), HEXADECIMAL_BASE))
        thread_number, version = word.split(".")
        return words.global_id(int(thread_number), int(version))

    def operand(self, word):
        """An id, or where it is from."""
        if word == LAST:
            return LAST
        if word.startswith(REGISTER) and word.removeprefix(REGISTER).isdecimal():
            return InRegister(int(word.removeprefix(REGISTER)))
        return self.identifier(word)

    def instruction(self, line, place):
        """The instruction of a line. A function tells which place is meant by a number or a name."""
        match line.split():
            case "set", register, word:
                return Set(number(register), number(word))
            case "copy", register, source:
                return Copy(number(register), number(source))
            case "add", register, word:
                return Add(number(register), number(word))
            case "from", register:
                return From(number(register))
            case "tag", word:
                return Tag(number(word))
            case "vs", thread:
                return Virtual(self.operand(thread))
            case "ipc", to, source, send, receive:
                return Ipc(self.operand(to), self.operand(source), period(send), period(receive))
            case "exregs", target, bits:
                return Order(self.operand(target), bits)
            case "delete", target:
                return Order(self.operand(target), DELETE)
            case "jump", target:
                return Jump(place(target))
            case "onerr", target:
                return OnError(place(target))
            case "onlabel", label, target:
                return OnLabel(number(label), place(target))
            case "onword", register, word, target:
                return OnWord(number(register), number(word), place(target))
            case "onfrom", thread, target:
                return OnFrom(self.identifier(thread), place(target))
            case ["end"]:
                return End()
        raise ValueError(line)

    def script(self, lines):
        """The script of these lines, of which each may begin with a name."""
        labels, said = {}, []
        for line in lines:
            first, *others = line.split(maxsplit=1)
            if first.endswith(LABEL_END):
                labels[first.removesuffix(LABEL_END)] = len(said)
                line = others[0] if others else ""
            if line:
                said.append(line)
        return [self.instruction(line, lambda word: labels[word] if word in labels else number(word)) for line in said]


def period(word):
    if word == NEVER:
        return None
    for unit, ticks in UNITS.items():
        if word.endswith(unit) and word.removesuffix(unit).isdecimal():
            return int(word.removesuffix(unit)) * ticks
    return 0 if word == ZERO else words.period(number(word))


def said(text):
    """What the lines of a text say, without comments and what else is skipped."""
    lines = (line.partition(COMMENT)[0].strip() for line in text.splitlines())
    return [line for line in lines if line]


def named(instruction, id_from):
    """An instruction with the ids that it names, by a function of an id or of where it is from."""
    match instruction:
        case Virtual(thread):
            return Virtual(id_from(thread))
        case Ipc(to, source, send, receive):
            return Ipc(id_from(to), id_from(source), send, receive)
        case Order(target, what):
            return Order(id_from(target), what)
    return instruction


def read(text):
    """The machine of a text."""
    first, cpus, *declared = said(text)
    _, profile, bits = first.split()[:3]
    machine = Machine(number(profile), words.FORMATS[number(bits)], number(cpus.split()[1]), {})
    reader = Reader(machine.format)
    parts = []
    for line in declared:
        match line.split():
            case "name", name, thread:
                reader.names[name] = reader.identifier(thread)
            case "thread", *_:
                parts.append((line, []))
            case _:
                parts[-1][1].append(line)
    for line, script in parts:
        match line.split():
            case _, first, "to", last, _, cpu, _, space, _, source:
                first, last = reader.identifier(first), reader.identifier(last)
            case _, first, _, cpu, _, space, *others:
                first = last = reader.identifier(first)
                source = others[1] if others else None
        instructions = machine.threads[reader.identifier(source)].script if source else reader.script(script)
        for thread in range(first, last + 1, words.global_id(1, 0)):
            machine.threads[thread] = Declaration(thread, number(cpu), number(space), instructions)
    return machine

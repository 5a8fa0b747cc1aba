"""Steps as lines of a trace, and back. A step is a tuple: its verb, and its fields."""

import re

from second import machines, words
from second.threads import Name

OF_THREADS = ("local", "wait", "rtimeout", "rnobody", "rcancel", "obey")
OF_SENDS = ("begin", "queue", "stimeout", "snobody", "scancel", "drop", "retarget")
ORDERS = ("S", "R", "SR", machines.DELETE)

DECIMAL = re.compile(r"0|[1-9][0-9]*")
HEXADECIMAL = re.compile(r"0|[1-9a-f][0-9a-f]{0,15}")
LAST_CPU = 15
# The last value of a clock.
LAST_CLOCK = (1 << 62) - 1
# Of a lawful tag all of these are zero.
NEVER_RECEIVED = words.TYPED_MASK | words.REDIRECTED | words.ERROR


class TraceFault(Exception):
    """The first line, counted from 1, that is the line of no step."""

    def __init__(self, line):
        super().__init__(line)
        self.line = line


def line(step):
    match step:
        case "deliver", name, receiver, shown, actual, tag, message:
            return " ".join(["deliver", str(name), *map(words.spelled, (receiver, shown, actual)), *(f"{word:x}" for word in (tag, *message))])
        case "order", caller, target, what:
            return f"order {words.spelled(caller)} {words.spelled(target)} {what}"
        case "tick", cpu, clock:
            return f"tick {cpu} {clock}"
        case verb, field:
            return f"{verb} {words.spelled(field) if verb in OF_THREADS else field}"
    raise ValueError(step)


def text(history):
    return "".join(line(step) + "\n" for step in history)


def count(verb, history):
    return sum(1 for step in history if step[0] == verb)


def decimal(word, least, most):
    if not DECIMAL.fullmatch(word) or not least <= int(word) <= most:
        raise ValueError(word)
    return int(word)


def hexadecimal(word):
    if not HEXADECIMAL.fullmatch(word):
        raise ValueError(word)
    return int(word, machines.HEXADECIMAL_BASE)


def thread(word):
    number, version = word.split(".")
    said = words.global_id(decimal(number, 0, words.VERSION_MASK), decimal(version, 0, words.VERSION_MASK))
    if not words.is_global(said):
        raise ValueError(word)
    return said


def name(word):
    beginner, number = word.split("#")
    return Name(thread(beginner), decimal(number, 1, words.WORD_MASK))


def delivery(said, receiver, shown, actual, tag, message):
    tag = hexadecimal(tag)
    if tag & NEVER_RECEIVED or len(message) != tag & words.COUNT_MASK:
        raise ValueError(tag)
    return "deliver", name(said), thread(receiver), thread(shown), thread(actual), tag, tuple(map(hexadecimal, message))


def step(said):
    """The step of a line. A ValueError is raised where it has none."""
    match said.split(" "):
        case verb, field if verb in OF_THREADS:
            return verb, thread(field)
        case verb, field if verb in OF_SENDS:
            return verb, name(field)
        case "deliver", sent, receiver, shown, actual, tag, *message:
            return delivery(sent, receiver, shown, actual, tag, message)
        case "order", caller, target, what if what in ORDERS:
            return "order", thread(caller), thread(target), what
        case "tick", cpu, clock:
            return "tick", decimal(cpu, 0, LAST_CPU), decimal(clock, 1, LAST_CLOCK)
    raise ValueError(said)


def read(said):
    """The history of a trace."""
    history = []
    *lines, rest = said.split("\n")
    for number, each in enumerate(lines, 1):
        try:
            history.append(step(each))
        except ValueError:
            raise TraceFault(number) from None
    if rest:
        raise TraceFault(len(lines) + 1)
    return history

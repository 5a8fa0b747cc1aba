"""A chart of a history as text in ASCII: a row for each step, and behind them what each thread is in."""

import dataclasses

from second import machines, model, traces, waits, words
from second.model import World
from second.threads import Phase

MARKS = {
    **{"local": "*", "begin": "o", "queue": "q", "wait": "w", "order": "!", "obey": "v", "retarget": "@"},
    **dict.fromkeys(("stimeout", "snobody", "scancel", "drop"), "x"),
    **dict.fromkeys(("rtimeout", "rnobody", "rcancel"), "X"),
}
STATE_MARKS = {Phase.READY: "|", Phase.SENDING: "o", Phase.RECEIVING: "w", Phase.ORDERING: "!", Phase.ENDED: "_"}
DELETED_MARK = "#"
RUNS = ("local", "begin", "wait", "order")
# In front of these the destination of their send is known; in front of `begin` it is not.
DECIDES = ("queue", "stimeout", "snobody", "scancel", "drop")
# What follows a phase in which an instruction is under way, and one that has begun has gone on from its place already.
GONE_ON = (Phase.SENDING, Phase.RECEIVING)
# In these states a thread waits.
WAITS = ("sending", "receiving", "ordering")
# Behind a chart that has no room for the words of steps.
TOO_WIDE = "too wide for words: l4run chart FILE TRACE --threads ID,.. shows some threads\n"
# A shaft, and a head to the right and to the left.
DELIVERY, OPEN = ("-", ">", "<"), (".", ")", "(")
LEAST_NUMBER, LINE_ROOM, MOST_CELL = 4, 34, 10


@dataclasses.dataclass(frozen=True)
class Row:
    number: str
    # The threads at which it has a mark, with the mark; or a sender and a receiver.
    marks: dict
    arrow: tuple | None
    concerned: set
    said: str
    # Lines of what it changes in threads.
    changes: tuple = ()
    # The threads that wait behind it.
    waits: frozenset = frozenset()


@dataclasses.dataclass(frozen=True)
class Part:
    """From one step to another, the threads that are shown, whether it is told what changes in their registers, and whether `local` steps are left out."""

    first: int
    last: int
    chosen: tuple | None
    registers: bool = False
    folds: bool = False

    def shows(self, thread):
        return self.chosen is None or thread in self.chosen


def numbered_lines(text, machine):
    """For each thread the numbers of the lines of its instructions, and what these say."""
    reader, scripts, own = machines.Reader(machine.format), {}, []
    for number, line in enumerate(text.split("\n"), 1):
        said = line.partition(machines.COMMENT)[0].strip()
        match said.split():
            case "name", name, thread:
                reader.names[name] = reader.identifier(thread)
            case "thread", first, *others:
                last = others[1] if others[0] == "to" else first
                own = scripts[reader.identifier(others[-1])] if others[-2] == "as" else []
                threads = range(reader.identifier(first), reader.identifier(last) + 1, words.global_id(1, 0))
                scripts.update(dict.fromkeys(threads, own))
            case [label] if label.endswith(":"):
                pass
            case [_, *_]:
                own.append((number, said))
    return scripts


def parts(member):
    """The registers of a thread, in the order of a report, and the threads whose sends wait at it."""
    context = member.context
    senders = " ".join(words.spelled(each.thread) for each in member.waiting)
    return {
        "ErrorCode": str(int(context.error)),
        "from": words.spelled(context.last),
        "ActualSender": words.spelled(context.actual),
        **{f"MR{number}": f"0x{word:x}" for number, word in enumerate(context.registers)},
        "senders": senders or "none",
    }


def changed(thread, before, behind):
    """The line of a thread in which some part is not what it was."""
    said = [f"{name} {word}" for name, word in behind.items() if before[name] != word]
    return [f"      {words.spelled(thread)}: {', '.join(said)}"] if said else []


class Charted:
    """A history, step by step."""

    def __init__(self, text, machine, history, part):
        self.machine, self.part = machine, part
        self.scripts = numbered_lines(text, machine)
        self.world = World(machine)
        self.rows = [self.told(number, step) for number, step in enumerate(history[: part.last], 1)]

    def at(self, thread, place, whole):
        """The line of an instruction, and its text where that is told."""
        if place not in range(len(self.scripts[thread])):
            return ""
        number, line = self.scripts[thread][place]
        return f" (line {number}: {line})" if whole else f" (line {number})"

    def watched(self):
        """The parts of each thread of whose registers it is told what changes."""
        return {each: parts(self.world.members[each]) for each in self.columns()} if self.part.registers else {}

    def told(self, number, step):
        before = self.watched()
        row, behind = self.row(number, step), self.watched()
        changes = tuple(line for each in behind for line in changed(each, before[each], behind[each]))
        return dataclasses.replace(row, changes=changes, waits=self.waiting())

    def waiting(self):
        return frozenset(each for each in self.machine.threads if self.world.members[each].state() in WAITS)

    def row(self, number, step):
        verb, field, *others = step
        thread = getattr(field, "thread", field)
        to = self.world.sends[field].destination if verb in DECIDES else None
        place = self.world.members[thread].context.place if verb in RUNS else None
        self.world.take(*step)
        if verb == "begin":
            to = self.world.sends[field].destination
        said = traces.line(step) + (f" to {words.spelled(to)}" if to is not None else "")
        said += self.at(thread, place, verb == "local") if verb in RUNS else ""
        if verb == "tick":
            ticked = {each for each in self.machine.threads if self.machine.cpu(each) == field}
            return Row(str(number), dict.fromkeys(ticked, "="), None, ticked, said)
        if verb == "deliver":
            return Row(str(number), {}, (thread, others[0]), {thread, others[0]}, said)
        concerned = {thread, others[0]} if verb == "order" else {thread}
        return Row(str(number), {thread: MARKS[verb]}, None, concerned, said)

    def columns(self):
        return [each for cpu in range(self.machine.cpus) for each in self.machine.threads if self.machine.cpu(each) == cpu and self.part.shows(each)]

    def shown_rows(self):
        for number, row in enumerate(self.rows, 1):
            is_shown = any(self.part.shows(each) for each in row.concerned) or self.part.chosen is None
            if number >= self.part.first and is_shown and not (self.part.folds and row.said.startswith("local ")):
                yield row

    def standing(self, thread):
        member = self.world.members[thread]
        send = member.send
        arrow = (thread, send.destination) if send and words.is_global(send.destination) else None
        mark = STATE_MARKS[member.phase] if member.alive else DELETED_MARK
        return Row("", {} if arrow else {thread: mark}, arrow, {thread}, self.standing_said(thread, member), waits=self.waiting())

    def standing_said(self, thread, member):
        said = f"{words.spelled(thread)} {member.state()}"
        if member.send:
            said += ("" if member.alive else ", sending") + f" to {words.spelled(member.send.destination)}"
        if member.receives():
            said += f" from {words.spelled(member.source)}"
        if member.order is not None:
            said += ("" if member.alive else ", ordering") + f" {words.spelled(member.order.target)} {member.order.what}"
        if not member.alive or member.phase is Phase.ENDED:
            return said
        return said + self.at(thread, member.context.place - (member.phase in GONE_ON), member.phase is Phase.READY)


def cell(columns, place, row, glyphs, width):
    """What stands in front of the line of a thread and at it."""
    shaft, right, left = glyphs
    space = " " * (width - 1)
    own = ":" if columns[place] in row.waits else "|"
    if row.arrow is None:
        return space + row.marks.get(columns[place], own)
    start, end = (columns.index(each) if each in columns else None for each in row.arrow)
    if start is None or end is None:
        if place == end:
            return space[1:] + right + own
        return space[1:] + left + "+" if place == start else space + own
    low, high = min(start, end), max(start, end)
    line = "+" if place == start else "-" if low < place < high else own
    if not low < place <= high:
        return space + line
    before = left + shaft * (width - 2) if end < start and place == end + 1 else shaft * (width - 1)
    return (before[:-1] + right if start < end and place == end else before) + line


def text(said, machine, history, part, width):
    """The chart of a part of a history of the machine that is said so, on a terminal of this width."""
    charted = Charted(said, machine, history, part)
    columns, rows = charted.columns(), list(charted.shown_rows())
    number = max(LEAST_NUMBER, len(rows[-1].number) if rows else 0)
    room = max(width - number, 0)
    longest = max((len(words.spelled(each)) for each in columns), default=0)
    wide = max(longest + 2, min(max(room - LINE_ROOM, 0) // max(len(columns), 1), MOST_CELL))
    line = max(room - wide * len(columns) - 2, 0)
    out = "cpu".rjust(number)
    for before, each in zip([None, *columns], columns, strict=False):
        same = before is not None and machine.cpu(before) == machine.cpu(each)
        out += " " + "-" * (wide - 1) if same else str(machine.cpu(each)).rjust(wide)
    out += "\n" + "step".rjust(number) + "".join(words.spelled(each).rjust(wide) for each in columns) + "\n"
    for row in rows:
        said = row.said if len(row.said) <= line else row.said[: max(line - 1, 0)] + "~"
        out += row.number.rjust(number) + "".join(cell(columns, at, row, DELIVERY, wide) for at in range(len(columns))) + (f"  {said}" if line else "") + "\n"
        out += "".join(each + "\n" for each in row.changes)
    for row in map(charted.standing, columns):
        cells = " " * number + "".join(cell(columns, at, row, OPEN, wide) for at in range(len(columns)))
        out += f"{cells if line else ''}  {row.said}\n"
    return out + circles(charted.world) + ("" if line else TOO_WIDE)


def circles(world):
    return "".join(line + "\n" for line in waits.waits_text(world).splitlines() if not line.startswith("waits "))


def of_trace(said, trace, part, width):
    """The chart of the steps before the first that is not possible, and the number of that."""
    machine, history = machines.read(said), traces.read(trace)
    try:
        model.world_of(machine, history)
        refused = None
    except model.Refused as fault:
        refused = fault.step
    known = history if refused is None else history[: refused - 1]
    return text(said, machine, known, part, width), refused

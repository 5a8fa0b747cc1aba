"""Random machine texts of several kinds, random schedules that go by what the processors have to do, and traces with one field spoilt or one retarget
late."""

import re

from second import machines, traces, words
from second.processors import OwnTurn, Replay, TakeLetter, Tick, TickTo, Turn

MOST_CPUS = 16
MOST_REGISTERS = 63
MOST_SPACE = (1 << 32) - 1
MOST_TIME = 0x7FFF
FORMATS = list(words.FORMATS.values())

# What general machines are drawn from. What stands there more than once is drawn more often.
CPUS = [1, 2, 2, 2, 2, 2, 3, 3, 3, 3, 4, 4, 5, 8, MOST_CPUS]
THREADS = [1, 2, 3, 3, 3, 4, 4, 4, 5, 5, 6, 7, 8]
SPACES = [[1], [1], [1, 1, 2], [1, 2], [1, 2, 3], [0, MOST_SPACE]]
# Of these the last is the greatest of the format.
VERSIONS = [1, 1, 1, 1, 1, 2, 63, 65]
# How often an id stands where it names nobody.
ODDITIES = [0, 0.02, 0.05, 0.05, 0.15]
# So many processors have threads at most.
MOST_LIVE = 4
MESSAGE_LENGTHS = [0, 0, 0, 1, 1, 2, 3, MOST_REGISTERS]
IGNORED_FLAGS = [0, 0, 0, 0, words.REDIRECTED, words.ACROSS, words.ERROR]
VALUES = [0, 1, 2, 5, 41, 255]
ZEROS = ["zero", "zero", "zero", "1024", "0x800", "0x7c00", "0x0400"]
LONG_TIMES = ["0xc03", "0x401", "0x7fff", "1025", "0x801"]
LOCAL_IDS = [0x40, 0x1C0]
UNDECLARED = words.global_id(99, 1)
# Makes the id of a thread that of its number with another version.
OTHER_VERSION = 4
BITS = ["S", "R", "SR"]

# What small machines are drawn from, in which all that is near to each other happens.
FEW_CPUS = [2, 2, 2, 3, 3, 4]
FEW_THREADS = [3, 4, 4, 5, 5, 6]
FEW_SPACES = [[1], [1], [1, 1, 1, 2]]
FEW_VERSIONS = [1, 1, 1, 65]
FEW_PERIODS = ["never", "never", "zero", "1", "2", "3", "0x403"]

# What machines are drawn from in which messages are handed on. Most threads are of one space, as who hands on has to be of the originator's.
HANDING_CPUS = [1, 1, 2, 2, 3, 3, 4]
HANDING_SPACES = [[1], [1, 1, 1, 2]]
# The periods of one machine: in most there is no time.
HANDING_PERIODS = [["never"], ["never"], [*["never"] * 12, "zero", "1", "3"]]

# The least and the greatest length of a schedule.
LENGTHS = [(0, 10), (5, 40), (5, 40), (30, 90), (30, 90), (60, 150), (60, 150), (60, 150)]
LONG = [(30, 90), (60, 150), (60, 150)]
TICKS = [0, 0.05, 0.1, 0.2]
# How often a turn or a tick is tried where nothing may be to be done.
IDLE = 0.015
# How often an entry of a schedule names a letter, a turn past the mail or a value of a clock.
CHOICES = [0, 0, 0.1, 0.5, 0.9]
# So many lines of a trace count as its end.
NEAR_THE_END = 5


class Text:
    """A machine text in the making: its threads with their processors and spaces, and two of them that most others talk to."""

    profile = 1
    # What the first line ends with.
    version = ""
    lengths = LENGTHS

    def __init__(self, dice, form, cpus, live, numbers, versions, spaces):
        self.dice = dice
        self.format = form
        self.cpus = cpus
        self.threads = [words.global_id(number, dice.choice(versions)) for number in numbers]
        self.cpu = {thread: dice.choice(live) for thread in self.threads}
        self.space = {thread: dice.choice(spaces) for thread in self.threads}
        self.hot = dice.sample(self.threads, min(len(self.threads), 2))
        # The thread whose script is made.
        self.me = None

    def chance(self, share):
        return self.dice.random() < share

    def anybody(self):
        return self.dice.choice(self.hot if self.chance(0.5) else self.threads)

    def mates(self):
        return [thread for thread in self.threads if self.space[thread] == self.space[self.me]]

    def exregs(self, target):
        return f"exregs {target} {self.dice.choice(BITS)}"

    def value(self):
        bits = self.format.bits
        return self.dice.choice([*VALUES, 1 << bits - 1, self.format.mask, self.dice.getrandbits(bits)])

    def additions(self, most):
        """Instructions that pass the time."""
        return [f"add 1 {self.value()}" for _ in range(self.dice.randint(0, most))]

    def declared_names(self):
        return []

    def declared(self, line):
        """The thread line of a thread and its script."""
        return [line, *self.script()]

    def text(self):
        lines = [f"l4 {self.profile} {self.format.bits}{self.version}", f"cpus {self.cpus}", *self.declared_names()]
        for thread in self.threads:
            self.me = thread
            lines += self.declared(f"thread {words.spelled(thread)} cpu {self.cpu[thread]} space {self.space[thread]}")
        return "".join(line + "\n" for line in lines)


class General(Text):
    """Machines with all instructions and ids of all kinds, whose threads have roles."""

    def __init__(self, dice):
        form, cpus = dice.choice(FORMATS), dice.choice(CPUS)
        live = dice.sample(range(cpus), dice.randint(1, min(cpus, MOST_LIVE)))
        threads = dice.choice(THREADS)
        # The last number goes with every version.
        numbers = dice.choice([range(1, threads + 1), range(threads), [*range(1, threads), form.number_mask - 1]])
        super().__init__(dice, form, cpus, live, numbers, [*VERSIONS, form.version_mask], dice.choice(SPACES))
        self.oddity = dice.choice(ODDITIES)

    def spelled(self, thread):
        """An id is now and then spelled by its word, a local one always."""
        if words.is_local(thread) or self.chance(0.15):
            return f"#{self.format.word(thread):0{self.format.digits}x}"
        return words.spelled(thread)

    def odd(self):
        """An id that no thread has."""
        greatest_bit, above_a_version = 1 << self.format.bits - 1, 1 << self.format.version_bits | LOCAL_IDS[0]
        ids = [words.NIL, words.ANY, words.ANY_LOCAL, UNDECLARED, self.threads[0] ^ OTHER_VERSION, *LOCAL_IDS, above_a_version, greatest_bit]
        return self.spelled(self.dice.choice(ids))

    def to(self):
        return self.odd() if self.chance(self.oddity) else self.spelled(self.anybody())

    def source(self):
        return self.dice.choices([self.spelled(words.ANY), self.spelled(words.ANY_LOCAL), self.to()], [50, 15, 35])[0]

    def mate(self):
        return self.odd() if self.chance(self.oddity) else self.spelled(self.dice.choice(self.mates()))

    def period(self):
        short, some = self.dice.randint(1, 6), self.dice.randint(0, MOST_TIME)
        times = ["never", "0", self.dice.choice(ZEROS), short, self.dice.choice(LONG_TIMES), some]
        return self.dice.choices(times, [40, 5, 20, 30, 3, 2])[0]

    def patient(self):
        """A period that is never in most cases."""
        return self.dice.choice(["never", "never", self.period()])

    def ipc(self, to=None, source=None, send=None, receive=None):
        return f"ipc {to or self.to()} {source or self.source()} {send or self.patient()} {receive or self.patient()}"

    def tag(self, propagated=0.2):
        flags = self.dice.choice(IGNORED_FLAGS) | (words.PROPAGATED if self.chance(propagated) else 0)
        label = self.dice.choice([0, 1, 7, self.dice.getrandbits(self.format.label_bits)])
        return f"tag {label << words.LABEL_SHIFT | flags | self.dice.choice(MESSAGE_LENGTHS)}"

    def register(self):
        return self.dice.choice([1, 1, 2, 3, self.dice.randint(1, MOST_REGISTERS)])

    def script(self):
        roles = [
            self.server, self.server, self.client, self.caller, self.caller, self.canceller, self.killer, self.poller, self.forwarder,
            self.chooser, self.chooser,
        ]
        lines = self.mixture() if self.chance(0.4) else self.dice.choice(roles)()
        return lines + ["jump 0"] if self.chance(0.6) else lines

    def server(self):
        answer = self.ipc("last", send=self.dice.choice(["zero", "never", self.period()]))
        return [self.ipc("nil"), *self.additions(1), answer, f"jump {self.dice.randint(0, 1)}"]

    def client(self):
        to = self.to()
        return [self.tag(), f"set 1 {self.value()}", self.ipc(to, self.dice.choice([to, self.source()])), "onerr 0"]

    def caller(self):
        return [self.ipc() for _ in range(self.dice.randint(1, 3))]

    def canceller(self):
        target = self.mate()
        return self.additions(2) + [self.exregs(target if self.chance(0.7) else self.mate()) for _ in range(self.dice.randint(1, 4))]

    def killer(self):
        return [*self.additions(6), f"delete {self.to()}", self.ipc(self.dice.choice(["nil", self.to()]))]

    def poller(self):
        return [self.ipc(source=self.dice.choice(["nil", "nil", self.source()]), send="zero") for _ in range(self.dice.randint(1, 2))]

    def forwarder(self):
        return [self.ipc("nil"), f"vs {self.mate()}", self.tag(propagated=1), self.ipc(source=self.dice.choice(["nil", self.source()]))]

    def chooser(self):
        return self.additions(2) + [self.ipc(self.dice.choice(["nil", "nil", "nil", "last"])) for _ in range(self.dice.randint(1, 5))]

    def mixture(self):
        count = self.dice.randint(0, 10)
        return [self.instruction(count) for _ in range(count)]

    def instruction(self, count):
        """Any instruction of a script of so many."""
        place = self.dice.randint(0, count)
        return self.dice.choice([
            self.ipc(source="nil"), self.ipc("nil"), self.ipc("nil"), self.ipc(), self.ipc(), self.ipc("last"), self.ipc("nil", "nil"),
            self.tag(), f"vs {self.mate()}", f"vs {self.odd()}", self.exregs(self.mate()), f"delete {self.to()}",
            f"set {self.register()} {self.value()}", f"add {self.register()} {self.value()}", f"copy {self.register()} {self.register() - 1}",
            f"jump {place}", f"onerr {place}", "end",
        ])


class Conflicts(Text):
    """Small machines in which one thread is waited for, cancelled and deleted by the others at once."""

    def __init__(self, dice):
        cpus, threads = dice.choice(FEW_CPUS), dice.choice(FEW_THREADS)
        super().__init__(dice, dice.choice(FORMATS), cpus, range(cpus), range(1, threads + 1), FEW_VERSIONS, dice.choice(FEW_SPACES))
        self.prey = dice.choice(self.threads)

    def to(self):
        """Most sends go to another processor."""
        far = [thread for thread in self.threads if self.cpu[thread] != self.cpu[self.me]] or self.threads
        near = [thread for thread in self.threads if self.cpu[thread] == self.cpu[self.me]]
        return words.spelled(self.dice.choice(self.dice.choices([self.hot, far, near], [4, 4, 2])[0]))

    def source(self):
        return self.dice.choices(["any", "anylocal", self.to(), words.spelled(UNDECLARED)], [30, 20, 47, 3])[0]

    def target(self):
        return words.spelled(self.prey if self.chance(0.7) else self.dice.choice(self.mates()))

    def period(self):
        return self.dice.choice(FEW_PERIODS)

    def send(self, period=None):
        return f"ipc {self.to()} {self.dice.choice(['nil', self.source()])} {period or self.period()} {self.period()}"

    def receive(self):
        return f"ipc nil {self.source()} never {self.period()}"

    def script(self):
        roles = [
            self.sender, self.caller, self.canceller, self.canceller, self.killer, self.receiver, self.receiver, self.server, self.poller,
            self.forwarder, self.mixture,
        ]
        if self.me == self.prey:
            roles = [self.sender, self.caller, self.caller, self.receiver]
        lines = self.additions(3) + self.dice.choice(roles)()
        return lines + ["jump 0"] if self.chance(0.75) else lines

    def sender(self):
        return [f"ipc {self.to()} nil {self.period()} never"] * self.dice.randint(1, 3)

    def caller(self):
        return [f"ipc {self.to()} {self.source()} {self.period()} {self.period()}" for _ in range(self.dice.randint(1, 3))]

    def canceller(self):
        target = self.target()
        return [self.dice.choice([self.exregs(target), self.exregs(target), self.receive()]) for _ in range(self.dice.randint(1, 5))]

    def killer(self):
        target = self.target()
        return [*self.additions(8), f"delete {target}", f"ipc {self.dice.choice([target, 'nil'])} {target} {self.period()} {self.period()}"]

    def receiver(self):
        return [self.receive() for _ in range(self.dice.randint(1, 4))]

    def server(self):
        return ["ipc nil any never never", f"ipc last any {self.period()} {self.period()}", "onerr 0"]

    def poller(self):
        return [self.send("zero")] * self.dice.randint(1, 3)

    def forwarder(self):
        tag = self.dice.getrandbits(self.format.label_bits) << words.LABEL_SHIFT | words.PROPAGATED | self.dice.randint(0, 3)
        return [self.receive(), f"vs {words.spelled(self.dice.choice(self.mates()))}", f"tag {tag}", self.send()]

    def mixture(self):
        def instruction():
            orders = [self.exregs(self.target()), f"delete {self.target()}"]
            return self.dice.choices([self.send(), self.receive(), *orders, "onerr 0"], [35, 30, 20, 5, 10])[0]

        return [instruction() for _ in range(self.dice.randint(2, 6))]


class HandingOn(Text):
    """Small machines of profile 2, whose clients call one of few servers. These hand messages on in the client's name, to others that do the same or
    answer."""

    profile = machines.RETARGETING
    lengths = LONG

    def __init__(self, dice):
        cpus, threads = dice.choice(HANDING_CPUS), dice.choice(FEW_THREADS)
        super().__init__(dice, dice.choice(FORMATS), cpus, range(cpus), range(1, threads + 1), FEW_VERSIONS, dice.choice(HANDING_SPACES))
        count = dice.choice([1, 1, 2])
        self.clients, self.servers = self.threads[:count], self.threads[count:]
        self.periods = dice.choice(HANDING_PERIODS)

    def one_of(self, threads):
        return words.spelled(self.dice.choice(threads if self.chance(0.9) else self.threads))

    def to(self):
        """A server, most often one behind the thread, so that few wait for each other."""
        return self.one_of([thread for thread in self.servers if thread > self.me] or self.servers)

    def client(self):
        return self.one_of(self.clients)

    def period(self):
        return self.dice.choice(self.periods)

    def ipc(self, to, source):
        return f"ipc {to} {source} {self.period()} {self.period()}"

    def script(self):
        roles, shares = [self.hands_on, self.answers, self.mixture, self.cancels, self.deletes], [12, 4, 1, 1, 1]
        if self.me == self.threads[0]:
            roles, shares = [self.calls, self.sends_before_it_calls], [3, 1]
        elif self.me in self.clients:
            roles, shares = [self.calls, self.sends_before_it_calls, self.waits], [3, 1, 1]
        elif self.me == self.threads[-1]:
            roles, shares = [self.answers, self.hands_on], [4, 1]
        lines = self.dice.choices(roles, shares)[0]()
        return lines + ["jump 0"] if self.chance(0.8) else lines

    def calls(self):
        to = self.to()
        return [self.ipc(to, self.dice.choice([to, to, to, to, self.to(), "any"]))] * self.dice.randint(1, 2)

    def sends_before_it_calls(self):
        """The message is handed on while its originator is in the send phase of a call that waits for the old partner."""
        to = self.to()
        return [self.ipc(to, "nil"), self.ipc(self.to(), to)]

    def waits(self):
        return [self.ipc("nil", self.dice.choice([self.to(), "any"]))] * self.dice.randint(1, 3)

    def tag(self):
        return f"tag {self.dice.randint(0, 7) << words.LABEL_SHIFT | words.PROPAGATED | self.dice.randint(0, 2)}"

    def hands_on(self):
        receive = [self.ipc("nil", "any")] if self.chance(0.9) else []
        return [*receive, f"vs {self.client()}", self.tag(), self.ipc(self.to(), self.dice.choice(["nil", "nil", "nil", "any", self.client()]))]

    def answers(self):
        fresh_tag = ["tag 0"] if self.chance(0.5) else []
        return [self.ipc("nil", "any"), *fresh_tag, self.ipc(self.dice.choice(["last", "last", self.client()]), "nil")]

    def cancels(self):
        mates = self.mates()
        return [self.exregs(self.one_of([thread for thread in mates if thread in self.clients] or mates)), self.ipc("nil", "any")]

    def deletes(self):
        return [*self.additions(8), f"delete {self.one_of(self.threads)}", self.ipc("nil", "any")]

    def mixture(self):
        def instruction():
            send = self.ipc(self.to(), self.dice.choice(["nil", self.to(), "any"]))
            return self.dice.choice([send, send, self.ipc("nil", "any"), f"vs {self.client()}", self.tag(), "onerr 0"])

        return [instruction() for _ in range(self.dice.randint(2, 6))]


class GoingRound(Text):
    """Machines of both profiles with few worlds, most of whose threads go round for ever, beside others that wait."""

    def __init__(self, dice):
        cpus, threads = dice.choice([1, 2, 2, 3]), dice.choice([2, 2, 3, 3, 4])
        super().__init__(dice, dice.choice(FORMATS), cpus, range(cpus), range(1, threads + 1), FEW_VERSIONS, dice.choice(FEW_SPACES))
        self.profile = dice.choice([1, machines.RETARGETING])
        self.periods = dice.choice([["never"], ["never", "never", "zero"], ["never", "zero", "3"]])

    def other(self):
        """Most often another thread than the one whose script is made."""
        others = [thread for thread in self.threads if thread != self.me]
        return words.spelled(self.dice.choice(others if self.chance(0.95) else self.threads))

    def period(self):
        return self.dice.choice(self.periods)

    def ipc(self, to, source):
        return f"ipc {to} {source} {self.period()} {self.period()}"

    def source(self):
        return self.dice.choices(["any", "anylocal", self.other()], [3, 1, 6])[0]

    def mate(self):
        return words.spelled(self.dice.choice(self.mates()))

    def script(self):
        roles = [self.runs, self.sends, self.calls, self.receives, self.answers, self.sleeps, self.orders, self.hands_on, self.mixture]
        lines = self.dice.choices(roles, [1, 3, 3, 3, 3, 1, 2, 2, 4])[0]()
        if self.chance(0.65):
            lines.append(f"{self.dice.choice(['jump', 'jump', 'onerr'])} {self.dice.randint(0, len(lines))}")
        return lines

    def runs(self):
        return ["jump 0"]

    def sends(self):
        return [self.ipc(self.other(), "nil")]

    def calls(self):
        to = self.other()
        return [self.ipc(to, self.dice.choice([to, to, self.source()]))]

    def receives(self):
        return [self.ipc("nil", self.source()) for _ in range(self.dice.randint(1, 2))]

    def answers(self):
        return [self.ipc("nil", self.source()), self.ipc("last", self.dice.choice(["nil", "any"])), f"jump {self.dice.randint(0, 1)}"]

    def sleeps(self):
        return ["ipc nil any never 5", "jump 0"]

    def orders(self):
        order = f"delete {self.other()}" if self.chance(0.3) else self.exregs(self.mate())
        return [*(["ipc nil any never 3"] if self.chance(0.3) else []), order]

    def hands_on(self):
        return [self.ipc("nil", "any"), f"vs {self.mate()}", f"tag {words.PROPAGATED:#x}", self.ipc(self.other(), self.dice.choice(["nil", "any"]))]

    def mixture(self):
        def instruction():
            orders = [self.exregs(self.mate()), f"delete {self.other()}"]
            own = [f"vs {self.mate()}", f"tag {words.PROPAGATED:#x}", "set 1 1", "onerr 0"]
            ipcs = [self.ipc(self.other(), "nil"), self.ipc("nil", self.source()), self.ipc(self.other(), self.source())]
            return self.dice.choices([*ipcs, *orders, *own], [4, 4, 4, 2, 1, 1, 1, 1, 1])[0]

        return [instruction() for _ in range(self.dice.randint(1, 4))]


def ending_more(text):
    """A text whose threads go back only behind an error, so that more of them end."""
    return re.sub(r"\bjump ", "onerr ", text)


# Habits of schedules: which of the processors that have something to do may be next.


def blindly(replay, _busy, _entries):
    return range(len(replay.processors))


def evenly(_replay, busy, _entries):
    return busy


def steadily(_replay, busy, entries):
    """The same as before, as long as it has something to do."""
    return [cpu for cpu in busy if entries and cpu == entries[-1].cpu]


def unfairly(replay, busy, entries):
    """One is left out for some time, then the next one."""
    left_out = len(entries) // MOST_CPUS % len(replay.processors)
    return [cpu for cpu in busy if cpu != left_out]


def mail_first(replay, busy, _entries):
    return [cpu for cpu in busy if replay.has_mail(cpu)]


def mail_last(replay, busy, _entries):
    return [cpu for cpu in busy if not replay.has_mail(cpu)]


HABITS = [blindly, evenly, steadily, unfairly, unfairly, mail_first, mail_last, mail_last]


def random_replay(dice, machine, lengths):
    """A random schedule with one of these ranges of lengths, and the replay of the machine by it."""
    replay, entries = Replay(machine), []
    habit, ticks, choices = dice.choice(HABITS), dice.choice(TICKS), dice.choice(CHOICES)
    for _ in range(dice.randint(*dice.choice(lengths))):
        entry = next_entry(dice, replay, habit, ticks, entries)
        if dice.random() < choices:
            entry = choice_for(dice, replay, entry)
        entries.append(entry)
        replay.take(entry)
    return entries, replay


def next_entry(dice, replay, habit, ticks, entries):
    busy = [processor.cpu for processor in replay.processors if replay.is_busy(processor.cpu)]
    ticking = [processor.cpu for processor in replay.processors if processor.can_tick()]
    if ticking and (not busy or dice.random() < ticks):
        return Tick(dice.choice(ticking))
    if not busy or dice.random() < IDLE:
        return dice.choice([Turn, Tick])(dice.randrange(len(replay.processors)))
    # Now and then a habit is left.
    favoured = habit(replay, busy, entries) if dice.random() < 0.8 else busy
    return Turn(dice.choice(favoured or busy))


def choice_for(dice, replay, entry):
    """An entry of the same processor that names what it does."""
    processor = replay.processors[entry.cpu]
    if isinstance(entry, Tick):
        return TickTo(entry.cpu, value_of_clock(dice, processor))
    posters = [cpu for cpu, mail in enumerate(replay.mail[entry.cpu]) if mail]
    if posters and dice.random() < 0.6:
        return TakeLetter(entry.cpu, dice.choice(posters))
    if dice.random() < IDLE:
        return TakeLetter(entry.cpu, dice.randrange(len(replay.processors)))
    return OwnTurn(entry.cpu)


def value_of_clock(dice, processor):
    """Near the clock or a deadline, which may not be where the clock can go on to, and now and then far off."""
    near = [processor.clock, *(deadline for deadline, _ in processor.deadlines)]
    value = dice.choice([*near, *near, *near, traces.LAST_CLOCK >> 1]) + dice.randint(-1, 3)
    return min(max(value, 1), traces.LAST_CLOCK)


def spoilt(dice, machine, trace):
    """The trace with one field of a line changed. Half of these lines are near the end, where more of what is changed may still be possible."""
    lines = trace.splitlines()
    at = dice.choice([dice.randrange(len(lines)), dice.randrange(max(0, len(lines) - NEAR_THE_END), len(lines))])
    fields = lines[at].split(" ")
    place = dice.randrange(len(fields))
    fields[place] = dice.choice([other for other in others(dice, machine, fields, place) if other != fields[place]])
    lines[at] = " ".join(fields)
    return "".join(line + "\n" for line in lines)


def retargeted_late(dice, trace):
    """The trace with one retarget a few lines later, or left out. Nothing where it has none."""
    lines = trace.splitlines()
    places = [place for place, line in enumerate(lines) if line.startswith("retarget ")]
    if not places:
        return ""
    place = dice.choice(places)
    late = lines.pop(place)
    if dice.random() < 0.8:
        lines.insert(place + dice.randint(1, NEAR_THE_END), late)
    return "".join(line + "\n" for line in lines)


def others(dice, machine, fields, place):
    """What may stand in the place of a field."""
    said = fields[place]
    threads = [words.spelled(thread) for thread in [*machine.threads, UNDECLARED]]
    if place == 0:
        return next((verbs for verbs in (traces.OF_THREADS, traces.OF_SENDS) if said in verbs), ["tick", "order", "deliver"])
    if "#" in said:
        thread, number = said.split("#")
        return [f"{thread}#{int(number) + 1}", f"{thread}#{int(number) - 1}", *(f"{other}#{number}" for other in threads)]
    if "." in said:
        return [*threads, f"0{said}"]
    if said in traces.ORDERS:
        return [*traces.ORDERS, "RS"]
    if fields[0] == "tick":
        return [str(int(said) + 1), str(int(said) - 1), str(MOST_CPUS), str(traces.LAST_CLOCK), str(traces.LAST_CLOCK + 1)]
    word = int(said, machines.HEXADECIMAL_BASE)
    changed = [word ^ 1 << dice.randrange(words.WORD_BITS), word ^ words.PROPAGATED, word ^ words.ACROSS, word ^ words.ERROR]
    return [*(f"{other:x}" for other in changed), f"0{said}", said.upper()]

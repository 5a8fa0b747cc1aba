"""Random machine texts of version 2: of servers that dispatch and keep whom they answer later, and of all kinds of version 1, said anew by names, registers, branches and shared
scripts."""

from second import machines, words
from second.randoms import BITS, FEW_SPACES, FEW_VERSIONS, FORMATS, LENGTHS, MOST_REGISTERS, UNDECLARED, Conflicts, General, GoingRound, HandingOn, Text

# What names begin with: a number behind it makes each another one.
NAMES = ["ann", "Bob-", "c_", "mrs", "T", 30 * "n"]
LABELS = ["again", "Loop-", "on_", "x", 30 * "l"]
LONGEST_NAME, MOST_THREADS = 31, 1_024
# Of the registers that ids are taken from and senders are put into, those are most often asked for that few messages overwrite.
KEPT = [1, 2, 32, 32, 33, MOST_REGISTERS]
# What stands in front of a line and behind it.
BLANKS = ["", "", "", "  ", "\t", " \t "]
ENDS = ["", "", "", "", " ", "\t", " ; so", ";; 1.1 ", "\r", " ; it is\r"]
# How often an instruction of version 1 has another one in front of it that is of version 2 alone.
MORE = 0.3


class Serving(Text):
    """Machines with scripts of version 2: servers that dispatch by labels, words and senders and keep whom they answer later, clients that look into what
    they got, and threads that have the script of another."""

    version = " 2"

    def __init__(self, dice):
        cpus, threads = dice.choice([1, 1, 2, 2, 3]), dice.choice([2, 3, 3, 4, 4, 5])
        super().__init__(dice, dice.choice(FORMATS), cpus, range(cpus), range(1, threads + 1), FEW_VERSIONS, dice.choice(FEW_SPACES))
        self.profile = dice.choice([1, 1, machines.RETARGETING])
        self.named = {thread: f"{dice.choice(['ann', 'Bob-', 'c_'])}{number}" for number, thread in enumerate(self.threads) if self.chance(0.7)}
        self.periods = dice.choice([["never"], ["never", "never", "zero"], ["never", "zero", "5us", "1ms"]])
        self.own = set()

    def declared_names(self):
        return [f"name {name} {words.spelled(thread)}" for thread, name in self.named.items()]

    def declared(self, line):
        others = [thread for thread in self.threads if thread in self.own]
        if others and self.chance(0.25):
            return [f"{line} as {self.spelled(self.dice.choice(others))}"]
        self.own.add(self.me)
        return [line, *map(self.adorned, self.script())]

    def adorned(self, line):
        """Now and then with blanks in front and a comment behind."""
        return f"{self.dice.choice(['', '', '  '])}{line}{self.dice.choice(['', '', ' ; so'])}"

    def spelled(self, thread):
        return self.named[thread] if thread in self.named and self.chance(0.8) else words.spelled(thread)

    def to(self):
        return self.spelled(self.anybody())

    def register(self):
        return self.dice.choice([1, 1, 2, 32, 33])

    def operand(self):
        """Most often an id, else where one is from."""
        return self.dice.choices([self.to(), "last", f"mr{self.register()}"], [5, 2, 4])[0]

    def period(self):
        return self.dice.choice(self.periods)

    def ipc(self, to, source):
        return f"ipc {to} {source} {self.period()} {self.period()}"

    def tag(self):
        flags = words.PROPAGATED if self.chance(0.1) else 0
        return f"tag {self.dice.randint(0, 3) << words.LABEL_SHIFT | flags | self.dice.randint(0, 2):#x}"

    def test(self, label):
        return self.dice.choice([
            f"onlabel {self.dice.randint(0, 3)} {label}", f"onword {self.register()} {self.dice.randint(0, 2)} {label}",
            f"onfrom {self.dice.choice([self.to(), 'nil'])} {label}", f"onerr {label}",
        ])

    def script(self):
        lines = self.dice.choice([self.dispatches, self.keeps, self.calls, self.calls, self.looks, self.mixture])()
        return lines + ["jump 0"] if self.chance(0.5) else lines

    def dispatches(self):
        first = [self.ipc("nil", "any"), f"heard: {self.test('other')}", self.tag(), self.ipc("last", self.dice.choice(["any", "nil"]))]
        return [*first, self.test("heard"), "jump 0", "other: add 1 1", self.ipc(self.operand(), "nil")]

    def keeps(self):
        kept = self.register()
        return [self.ipc("nil", "any"), f"from {kept}", self.ipc("nil", self.dice.choice(["any", self.to()])), self.ipc(f"mr{kept}", "nil")]

    def calls(self):
        to = self.to()
        return [f"set 1 {self.dice.randint(0, 2)}", self.tag(), self.ipc(to, self.dice.choice([to, to, "any"])), self.test("done"), "add 2 1", "done:"]

    def looks(self):
        """Takes an id for a word, and back."""
        thread = self.dice.choice(self.threads)
        return [f"set 32 {self.format.word(thread):#x}", self.ipc("mr32", self.dice.choice(["nil", "mr32", "any"])), f"vs mr{self.register()}", self.tag()]

    def mixture(self):
        def instruction():
            orders = [f"exregs {self.operand()} {self.dice.choice(BITS)}", f"delete {self.dice.choice([self.to(), 'mr32'])}"]
            own = [f"from {self.register()}", f"vs {self.operand()}", self.tag(), f"set {self.register()} {self.value()}", self.test("here")]
            ipcs = [self.ipc(self.operand(), "nil"), self.ipc("nil", self.operand()), self.ipc("nil", "any"), self.ipc(self.operand(), self.operand())]
            return self.dice.choices([*ipcs, *orders, *own], [4, 2, 4, 4, 2, 1, 2, 2, 2, 2, 4])[0]

        lines = [instruction() for _ in range(self.dice.randint(2, 6))]
        return [*lines, "here:"] if self.chance(0.5) else ["here:", *lines]


class Turned:
    """A machine of any kind of version 1, said anew."""

    lengths = LENGTHS

    def __init__(self, dice):
        self.dice = dice
        self.first = dice.choice([General, Conflicts, HandingOn, GoingRound])(dice)

    def text(self):
        return turned(self.dice, self.first.text())


def turned(dice, text):
    """A text of version 1 as one of version 2. It does something else."""
    return Turning(dice, text).text()


class Turning:
    """The lines of a text, those of each thread for themselves, with the names that some ids have."""

    def __init__(self, dice, text):
        self.dice = dice
        self.first, self.cpus, *lines = text.splitlines()
        self.format = words.FORMATS[int(self.first.split()[2])]
        self.reader = machines.Reader(self.format)
        self.parts = []
        for line in map(str.split, lines):
            if line[0] == "thread":
                self.parts.append((line, []))
            else:
                self.parts[-1][1].append(line)
        self.threads = [head[1] for head, _ in self.parts]
        named = [thread for thread in self.threads if self.chance(0.5)] + [other for other in self.others() if self.chance(0.1)]
        self.names = {thread: numbered(dice.choice(NAMES), number) for number, thread in enumerate(named)}

    def chance(self, share):
        return self.dice.random() < share

    def others(self):
        return ["nil", "any", "anylocal", words.spelled(UNDECLARED), f"#{0x40:0{self.format.digits}x}"]

    def text(self):
        lines = [f"name {name} {thread}" for thread, name in self.names.items()]
        for at, (head, script) in enumerate(self.parts):
            head = [head[0], self.id(head[1]), *head[2:]]
            if at and self.chance(0.2):
                lines.append(" ".join([*head, "as", self.id(self.dice.choice(self.threads[:at]))]))
            else:
                lines += [" ".join(head), *self.script(script)]
        ends = (line + self.dice.choice(ENDS) for line in [f"{self.first} 2", self.cpus])
        return "".join(line + "\n" for line in [*ends, *self.adorned([*lines, *self.several()])])

    def several(self):
        """Now and then a line for one thread or two with the script of another, and the least numbers that nobody has."""
        if not 0 < len(self.threads) < MOST_THREADS - 1 or self.chance(0.8):
            return []
        numbers = {int(thread.split(".")[0]) for thread in self.threads}
        first = next(number for number in range(1, len(numbers) + 3) if not numbers & {number, number + 1})
        head, _ = self.dice.choice(self.parts)
        last = first + self.dice.randint(0, 1)
        return [f"thread {first}.1 to {last}.1 {' '.join(head[2:])} as {self.id(head[1])}"]

    def adorned(self, lines):
        """The lines with blanks and comments, and some that say nothing."""
        for line in lines:
            if self.chance(0.05):
                yield self.dice.choice(["", " ", "\t;", "; set 1 1", "\r"])
            yield self.dice.choice(BLANKS) + line + self.dice.choice(ENDS)

    # Operands

    def id(self, word):
        return self.names[word] if word in self.names and self.chance(0.7) else word

    def any_id(self):
        return self.id(self.dice.choice([*self.threads, *self.threads, *self.others()]))

    def operand(self, word, may_be_last=True):
        """What stands in the place of an id, with what puts that into a register before."""
        if self.chance(0.85 if word == "nil" else 0.6):
            return [], self.id(word)
        if may_be_last and self.chance(0.3):
            return [], machines.LAST
        register = self.dice.choice([0, *KEPT])
        return self.put(word, register) if self.chance(0.7) else [], f"{machines.REGISTER}{register}"

    def put(self, word, register):
        """The instruction that puts an id into a register, if one can."""
        if word == machines.LAST:
            return [["from", str(register)]] if register else []
        value = self.format.word(self.reader.identifier(word))
        if register:
            return [["set", str(register), f"{value:#x}"]]
        return [] if value & words.TYPED_MASK else [["tag", f"{value:#x}"]]

    def time(self, word):
        """A time as it stands, or in units that its period is a multiple of."""
        period = machines.period(word)
        if period is None or self.chance(0.6):
            return word
        unit, ticks = self.dice.choice([(unit, ticks) for unit, ticks in machines.UNITS.items() if not period % ticks])
        return f"{period // ticks}{unit}"

    # Instructions. Where one goes on at a place, its last word is that place: a number.

    def instruction(self, said):
        """What an instruction of version 1 becomes."""
        match said:
            case "ipc", to, source, *times:
                before, to = self.operand(to)
                more, source = self.operand(source)
                return [*before, *more, ["ipc", to, source, *map(self.time, times)]]
            case ("vs" | "exregs" | "delete") as verb, target, *bits:
                before, target = self.operand(target, verb != "delete")
                return [*before, [verb, target, *bits]]
            case ("jump" | "onerr") as verb, place:
                return [[verb, int(place)]]
        return [said]

    def more(self, count):
        """Now and then an instruction of version 2 in a script with so many places."""
        if not self.chance(MORE):
            return []
        register, place = str(self.dice.choice(KEPT)), self.dice.randint(0, count)
        labels = [0, 1, 7, (1 << self.format.label_bits) - 1, self.dice.getrandbits(self.format.label_bits)]
        word = self.dice.choice([0, 1, 2, 5, 0x8000, self.format.mask, self.format.word(self.reader.identifier(self.dice.choice([*self.threads, *self.others()])))])
        return [self.dice.choice([
            ["from", register], ["copy", register, str(self.dice.choice([0, *KEPT]))], ["set", register, f"{word:#x}"],
            ["onlabel", f"{self.dice.choice(labels):#x}", place], ["onword", str(self.dice.choice([0, *KEPT])), str(word), place], ["onfrom", self.any_id(), place],
            ["onfrom", self.any_id(), place],
        ])]

    def script(self, lines):
        said, places = [], []
        for line in lines:
            places.append(len(said))
            said += [*self.more(len(lines)), *self.instruction(line)]
        labels = Labels(self.dice, [*places, len(said)])
        spelled = [" ".join([*instruction[:-1], labels.spelled(instruction[-1])]) for instruction in said]
        return [line for at, instruction in enumerate([*spelled, ""]) for line in labels.in_front(at, instruction)]


class Labels:
    """The names of places of a script, of which each was one of another script before."""

    def __init__(self, dice, places):
        self.dice = dice
        self.places = places
        self.named = {}
        self.count = 0

    def spelled(self, word):
        """A word of an instruction; a place by a number or by a name."""
        if isinstance(word, str):
            return word
        place = self.places[word]
        if self.dice.random() < 0.3:
            return self.dice.choice([str(place), f"{place:#x}"])
        if place not in self.named or self.dice.random() < 0.1:
            self.named.setdefault(place, []).append(numbered(self.dice.choice(LABELS), self.count))
            self.count += 1
        return self.dice.choice(self.named[place])

    def in_front(self, place, instruction):
        """The lines of an instruction with its names. The last stands in front of it, or as the others on a line of its own."""
        *alone, line = [f"{name}{machines.LABEL_END}" for name in self.named.get(place, [])] or [""]
        if line and instruction and self.dice.random() < 0.7:
            instruction = f"{line}{self.dice.choice([' ', '  ', chr(9)])}{instruction}"
        else:
            alone.append(line)
        return [said for said in [*alone, instruction] if said]


def numbered(beginning, number):
    return f"{beginning[: LONGEST_NAME - len(str(number))]}{number}"

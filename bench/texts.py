"""The machine texts of the benchmarks."""

MOST_BYTES = 1_048_576
MOST_THREADS = 1_024
MOST_INSTRUCTIONS = 1_024

MOST_CPUS = 16

HEAD = "l4 1 64\ncpus 1\n"
# Of scripts of version 2.
SECOND_HEAD = "l4 1 64 2\ncpus 1\n"

# The last line of a text that is to be measured: its target is instruction 0, or one that no script has. Both have
# one length. Targets are judged last, so the second text is read whole, and then nothing is run.
LAWFUL_END = "jump 0x0000\n"
FAULTY_END = "jump 0xffff\n"


def thread(number, script=(), cpu=0):
    return "".join([f"thread {number}.1 cpu {cpu} space 1\n"] + [line + "\n" for line in script])


def machine(threads, cpus=1):
    return HEAD.replace("cpus 1", f"cpus {cpus}") + "".join(threads)


def filled(text, size):
    """The text with one line for readers alone and a last instruction, so that it has just this size."""
    room = size - len(text) - len(LAWFUL_END)
    assert room >= 2, "the text is too long"
    return text + ";" * (room - 1) + "\n" + LAWFUL_END


def faulty(text):
    """The text of the same length with a fault that is found when all has been read."""
    assert text.endswith(LAWFUL_END)
    return text[: -len(LAWFUL_END)] + FAULTY_END


# Long lines of each kind.
LONG_LINES = [
    "set 63 18446744073709551615",
    "add 63 0xffffffffffffffff",
    "copy 63 62",
    "tag 0x123456789abc003f",
    "ipc #0123456789abcdef nil 0x0000000000000000 never",
    "ipc nil any never never",
    "onerr 0x0000000000000000",
    "jump 0x0000000000000000",
]


def long_scripts(size):
    """Scripts of 1,024 instructions, but for the last one, with lines of each kind."""
    script = [LONG_LINES[place % len(LONG_LINES)] for place in range(MOST_INSTRUCTIONS)]
    whole = thread(10_000, script)
    count = (size - len(HEAD)) // len(whole)
    text = machine(thread(10_000 + number, script) for number in range(count))
    last = thread(10_000 + count)
    for line in script[:-1]:
        if len(text) + len(last) + len(line) + 1 + len(LAWFUL_END) + 2 > size:
            break
        last += line + "\n"
    return filled(text + last, size)


def many_threads(size):
    """As many threads as there may be in the largest text, with scripts that fill their shares with the shortest line."""
    count = MOST_THREADS * size // MOST_BYTES
    share = MOST_BYTES // MOST_THREADS
    empty = len(thread(10_000))
    script = ["end"] * ((share - empty - 1) // len("end\n"))
    threads = [thread(10_000 + number, script) for number in range(count - 1)]
    return filled(machine(threads + [thread(10_000 + count)]), size)


def empty_lines(size):
    """One thread, and nothing but empty lines."""
    text = machine([thread(1)])
    return text + "\n" * (size - len(text) - len(LAWFUL_END)) + LAWFUL_END


def in_second(text):
    """A text of version 1 as one of version 2."""
    return text.replace(HEAD, SECOND_HEAD, 1)


# Lines of a script as they stand in texts, so many kinds as such a text has: what a line says in version 2, the comment behind it, and what stands in its place in
# version 1. `{0}` is the number of the part of the script, and a number in version 1 is that of an instruction of the same script.
MIXED_LINES = [
    ("next{0}: ipc nil any never never", "", "ipc nil any never never"),
    ("heard{0}: onlabel 1 plus{0}", "by the label of what it received", "onerr 5"),
    ("onlabel 2 ask{0}", "", "onerr 8"),
    ("tag 0xff0000", "label 255, no words: not known", "tag 0xff0000"),
    ("jump answer{0}", "", "jump 19"),
    ("plus{0}: add 1 100", "", "add 1 100"),
    ("tag 1", "", "tag 1"),
    ("jump answer{0}", "", "jump 19"),
    ("ask{0}: onword 1 105 yes{0}", "", "onerr 18"),
    ("set 1 0", "", "set 1 0"),
    ("from 32", "keeps who asks", "set 32 0"),
    ("copy 2 1", "", "copy 2 1"),
    ("ipc mr32 nil 5us 512ms", "answers whoever asked before", "ipc 2.1 nil 5 10740"),
    ("exregs client SR", "", "exregs 1.1 SR"),
    ("vs client", "in the name of the client", "vs 1.1"),
    ("ipc server server never never", "", "ipc 3.1 3.1 never never"),
    ("onfrom client next{0}", "", "onerr 0"),
    ("delete pager", "", "delete 4.1"),
    ("yes{0}: tag 1", "", "tag 1"),
    ("answer{0}: ipc last any zero never", "answers, and hears whoever comes", "ipc last any zero never"),
    ("onerr next{0}", "", "onerr 0"),
    ("jump heard{0}", "", "jump 1"),
    ("end", "", "end"),
]
MIXED_NAMES = {"client": "1.1", "lock": "2.1", "server": "3.1", "pager": "4.1"}
MIXED_PARTS = 3


def mixed_first():
    """The lines of a script of the mix in version 1."""
    return [first for _ in range(MIXED_PARTS) for _, _, first in MIXED_LINES]


def mixed_second():
    """The same in version 2."""
    return [second.format(part) for part in range(MIXED_PARTS) for second, _, _ in MIXED_LINES]


def laid_out():
    """The same as people write it: what a line says stands in a column, and its comment, if it has one, in another."""
    lines = []
    for line, (_, comment, _) in zip(mixed_second(), MIXED_LINES * MIXED_PARTS):
        label, _, said = line.rpartition(": ")
        front = f"{label}: " if label else ""
        lines.append(f"{front:9}{said:24}; {comment}" if comment else f"{front:9}{said}")
    return lines


def mixed(size, script, head):
    """Threads that have this script, behind these first lines of a text."""
    whole = thread(10_000, script)
    count = (size - len(head) - len(LAWFUL_END) - 2) // len(whole)
    return filled(head + "".join(thread(10_000 + number, script) for number in range(count)), size)


def mixed_in_first(size):
    return mixed(size, mixed_first(), HEAD)


def mixed_in_second(size, script):
    return mixed(size, script, SECOND_HEAD + "".join(f"name {name} {id_named}\n" for name, id_named in MIXED_NAMES.items()))


def talking(first, second):
    """Two threads that send to each other for ever."""
    return [
        thread(first, [f"ipc {second}.1 nil never never", "ipc nil any never never", "jump 0"]),
        thread(second, ["ipc nil any never never", f"ipc {first}.1 nil never never", "jump 0"]),
    ]


def adding(first, second):
    """Two threads that add for ever, and send nothing."""
    return [thread(number, ["add 1 1", "jump 0"]) for number in (first, second)]


def waiting(count):
    """Threads that wait for ever."""
    return [thread(10_000 + number, ["ipc nil any never never"]) for number in range(count)]


def calling(client, server, words=0, cpus=(0, 0)):
    """Two threads of which one calls the other for ever with so many long words, and the other answers with the same. They are of these processors."""
    message = message_of(words)
    return [
        thread(client, message + [f"ipc {server}.1 {server}.1 never never", f"jump {len(message)}"], cpus[0]),
        thread(server, ["ipc nil any never never", "ipc last any never never", "jump 1"], cpus[1]),
    ]


def pairs(count):
    """So many such pairs of threads."""
    return [each for client in range(1, 2 * count, 2) for each in calling(client, client + 1)]


def across(count, cpus):
    """So many pairs of which one calls with one word. The two of a pair are of neighbouring processors."""
    return [each for pair in range(count) for each in calling(2 * pair + 1, 2 * pair + 2, 1, (pair % cpus, (pair + 1) % cpus))]


def among_themselves(cpus, threads, machine_cpus):
    """So many processors with so many threads each, in pairs of which one calls the other; none calls one of another processor. On a machine of one
    processor all are its own."""
    groups = [(cpu, cpu * threads + client) for cpu in range(cpus) for client in range(1, threads, 2)]
    return [each for cpu, client in groups for each in calling(client, client + 1, 1, (cpu % machine_cpus,) * 2)]


def message_of(words):
    """The lines that set so many long words."""
    return [f"tag {words}"] + [f"set {place} {0x123456789abcdef0 + place}" for place in range(1, words + 1)] if words else []


def second_machine(names, threads):
    """A text of version 2 that begins with these names of ids, and has these threads, each with its name or id and its lines."""
    lines = [f"name {name} {id_named}" for name, id_named in names.items()]
    for name, script in threads:
        lines += [f"thread {name} cpu 0 space 1", *script]
    return SECOND_HEAD + "".join(line + "\n" for line in lines)


def calling_by_names(words=0):
    """The machine of `calling` in version 2, with names for threads and places, and in version 1. Both are the same machine, and so are those of the functions below,
    but for how an instruction says whom it names and where it goes on: both have the same steps, and instructions of one line for one."""
    client = [*message_of(words), "again: ipc server server never never", "jump again"]
    server = ["ipc nil any never never", "answer: ipc last any never never", "jump answer"]
    second = second_machine({"client": "1.1", "server": "2.1"}, [("client", client), ("server", server)])
    return second, machine(calling(1, 2, words))


def word_of(number):
    """The word of the id of this number and of version 1, in 64 bits."""
    return (number << 32) + 1


def registers_of(client, server):
    """The lines by which MR32 has the id of the server, and MR33 that of its client."""
    return [f"set 32 {word_of(server)}", f"set 33 {word_of(client)}"]


def calling_by_registers(words=0, count=1):
    """So many pairs as in `calling`, in both versions. In version 2 a client has its server in a register, and the server its client. Both registers are part of
    a message that has so many words."""
    seconds, firsts = [], []
    for client in range(1, 2 * count, 2):
        server = client + 1
        kept = registers_of(client, server)
        message = message_of(words) + kept
        seconds += [
            (f"{client}.1", [*message, "again: ipc mr32 mr32 never never", "jump again"]),
            (f"{server}.1", [*kept, "ipc nil any never never", "answer: ipc mr33 any never never", "jump answer"]),
        ]
        firsts += [
            thread(client, [*message, f"ipc {server}.1 {server}.1 never never", f"jump {len(message)}"]),
            thread(server, [*kept, "ipc nil any never never", "ipc last any never never", "jump 3"]),
        ]
    return second_machine({}, seconds), machine(firsts)


def keeping():
    """A server that keeps who asks, and answers it by that register, in both versions."""
    second = second_machine({"server": "2.1"}, [
        ("1.1", ["again: ipc server server never never", "jump again"]),
        ("server", ["ipc nil any never never", "heard: from 33", "ipc mr33 any never never", "jump heard"]),
    ])
    first = [
        thread(1, ["ipc 2.1 2.1 never never", "jump 0"]),
        thread(2, ["ipc nil any never never", f"set 33 {word_of(1)}", "ipc last any never never", "jump 1"]),
    ]
    return second, machine(first)


def dispatching():
    """A server that goes by the label, a word and the sender, in both versions. It asks for each twice: so that it goes on with the next instruction, and so that
    it does not. In version 1 it does that by `onerr`, as no call fails, and by `jump`."""
    client = ["tag 0x20001", "set 1 7"]
    second = second_machine({"client": "1.1", "server": "2.1"}, [
        ("client", [*client, "again: ipc server server never never", "jump again"]),
        ("server", [
            "ipc nil any never never",
            "heard: onlabel 1 failed",
            "onlabel 2 word",
            "word: onword 1 5 failed",
            "onword 1 7 sender",
            "sender: onfrom server failed",
            "onfrom client answer",
            "answer: ipc last any never never",
            "jump heard",
            "failed:",
        ]),
    ])
    asked = ["onerr 9", "jump 3", "onerr 9", "jump 5", "onerr 9", "jump 7"]
    first = [
        thread(1, [*client, "ipc 2.1 2.1 never never", "jump 2"]),
        thread(2, ["ipc nil any never never", *asked, "ipc last any never never", "jump 1"]),
    ]
    return second, machine(first)


def crowd(count):
    """Threads that send to one receiver for ever."""
    senders = [thread(number, [f"ipc {count + 1}.1 nil never never", "jump 0"]) for number in range(1, count + 1)]
    return senders + [thread(count + 1, ["ipc nil any never never", "jump 0"])]


def sleepers(times):
    """Threads that wait again and again, each for a time of its own. A time is the word of a receive timeout: 1,024 e + m is 2^e m ticks."""
    return [thread(number, [f"ipc nil any never {time}", "jump 0"]) for number, time in enumerate(times, 1)]


def own_times(count):
    """Different times, of at most 1,023 ticks."""
    return range(1, count + 1)


def shared_times(count):
    """Ten times, from 100 to 1,000 ticks."""
    return [100 * (number % 10 + 1) for number in range(count)]


def times_of_one_remainder(count):
    """Different times of 64 ticks and their multiples, so that all deadlines have one remainder by 64."""
    return [6 * 1_024 + number for number in range(1, count + 1)]


def armed(count):
    """Threads that wait, each for a time of its own that does not come while others are busy."""
    return [thread(10_000 + number, [f"ipc nil any never {31 * 1_024 + 1 + number}"]) for number in range(count)]


def turning():
    """The machines of one processor whose turns are measured, by their names."""
    most = MOST_THREADS - 1
    return {
        "two that call each other": machine(calling(1, 2)),
        "the same behind 1,022 that wait": machine(waiting(most - 1) + calling(1, 2)),
        "the same behind 1,022 that are armed": machine(armed(most - 1) + calling(1, 2)),
        "512 such pairs": machine(pairs(MOST_THREADS // 2)),
        "1,023 senders to one receiver": machine(crowd(most)),
        "1,023 that wait, each for a time of its own": machine(sleepers(own_times(most))),
        "1,023 that wait, by the hundred for one time": machine(sleepers(shared_times(most))),
        "1,023 whose deadlines have one remainder": machine(sleepers(times_of_one_remainder(most))),
    }


def going_round(cpus):
    """Threads of which each is of a processor of its own. The first one sends to the second, each passes on what it gets, and so a message goes round for ever."""
    members = [
        (number, [f"ipc nil {(number - 2) % cpus + 1}.1 never never", f"ipc {number % cpus + 1}.1 nil never never", "jump 0"])
        for number in range(1, cpus + 1)
    ]
    first = (1, [members[0][1][1], members[0][1][0], "jump 0"])
    return [thread(number, script, number - 1) for number, script in [first] + members[1:]]


def one_busy(cpus):
    """A thread that adds for ever, and one that waits for ever on each other processor."""
    return [thread(1, ["add 1 1", "jump 0"])] + [thread(number + 1, ["ipc nil any never never"], number) for number in range(1, cpus)]


def crowd_across(count, cpus):
    """So many threads of all processors, that send to one receiver of the first processor for ever."""
    senders = [thread(number, [f"ipc {count + 1}.1 nil never never", "jump 0"], number % cpus) for number in range(1, count + 1)]
    return senders + [thread(count + 1, ["ipc nil any never never", "jump 0"])]


def sleepers_across(cpus):
    """A thread of each processor that waits again and again, for a time of its own."""
    return [thread(number + 1, [f"ipc nil any never {100 + number}", "jump 0"], number) for number in range(cpus)]


def of_several():
    """The machines of 16 processors whose runs are timed, each with its turns, by their names."""
    cpus = MOST_CPUS
    return {
        "each waits for times of its own": (machine(sleepers_across(cpus), cpus), 20_000),
        "one message goes round": (machine(going_round(cpus), cpus), 20_000),
        "one is busy": (machine(one_busy(cpus), cpus), 1_000_000),
        "127 senders to one": (machine(crowd_across(127, cpus), cpus), 300_000),
        "pairs across": (machine(across(64, cpus), cpus), 1_000_000),
    }

"""Compares what `l4run endings --placed` says of random machines with what the second emulator says, by two
searches of its own. That of persistent sets tells the same lines and the same status, where both find as many
states. That of all choices tells the same endings, by as many events, and the same status: where it is not cut by
a number of states. Prints counts.

Both search to a depth and among so many states that a machine takes no more than seconds. The program
may tell more states apart, as its processors know more than the second emulator's: such machines are
counted, and where a search ends at a number of states, one list of endings then begins the other.

Of each tenth part of them a ring is asked whether anybody gets stuck: some that take locks in some order, so that many have
more than 10,000 states before somebody is. Where a walk answers, the second emulator replays the schedule that it tells: it
has to come to rest, by choices that can be made, in an ending with this report in which somebody is stuck.
"""

import collections
import random
import re
import subprocess
import sys

import endings
from second import machines, randoms, scripts, searches
from second.processors import OwnTurn, TakeLetter, Tick

SEED = 20_261_127
KINDS = (randoms.General, randoms.HandingOn, randoms.Conflicts, randoms.HandingOn, scripts.Serving, scripts.Turned)
DEPTH = 40
MOST_STATES = 2_000
LINES = ("waiting ..", "waiting 1.1#* *", "thread 1.1 ended ..", "thread * receiving ..", "thread 2.1 sending 0 * * *", "thread 1.1 * ..", "ending quiet")
# No report has one of these.
FAULTY = ("thread 1.1 reciving ..", "ending over", "waiting 1.1#* 2.1 2.1", "thread 1.1 .. ended")


def question(dice):
    """What is asked of a machine: half of the time all endings."""
    words = ["--placed", f"--depth={DEPTH}", f"--states={MOST_STATES}"]
    if dice.random() < 0.5:
        return words
    words += [name for name in ("--stuck", "--none", "--waits") if dice.random() < 0.5]
    return words + [f"{name}={dice.choice(LINES if dice.random() < 0.9 else FAULTY)}" for name in ("--with", "--never") if dice.random() < 0.3]


def compared(program, file, text, words, counts):
    """Asks both of a machine. Ends with what differs, where they differ."""
    with open(file, "w") as machine_file:
        machine_file.write(text)
    told = subprocess.run([program, "endings", file, *words], stdout=subprocess.PIPE, stderr=subprocess.STDOUT, text=True)
    lines, faults, status = endings.full_answer(text, endings.question([file, *words]), [])
    expected = lines + faults
    is_same = told.stdout == expected and told.returncode == status
    if not is_same and not agree(told.stdout, expected):
        sys.exit(f"{words}, the machine:\n{text}\nthe program says, {told.returncode}:\n{told.stdout}\nthe second emulator says, {status}:\n{expected}")
    if faults:
        counts["lines that no report has"] += 1
        return
    compare_with_all(told, text, endings.question([file, *words]), counts)
    last = expected.splitlines()[-1].split()
    counts[f"machines whose search is {'cut' if last[-1] == 'cut' else 'whole'}"] += 1
    counts[f"machines with status {status}"] += 1
    counts["machines with the same lines and status"] += is_same
    counts["states"] += int(last[1])
    counts["endings"] += expected.count("\nending quiet\n")


def compare_with_all(told, text, asked, counts):
    """Compares endings and their lengths with those of a search of all choices, if it was not cut by a number of states."""
    expected, status = endings.whole_answer(text, asked)
    (ours, _), (theirs, last) = map(listed, (told.stdout, expected))
    if last[-1] == "cut" and int(last[3]) < asked.depth:
        counts["machines with too many states for a search of all choices"] += 1
        return
    if ours != theirs or told.returncode != status and last[-1] != "cut":
        sys.exit(f"{asked}, the machine:\n{text}\nthe program says, {told.returncode}:\n{told.stdout}\nall choices say, {status}:\n{expected}")
    counts["machines with the endings of a search of all choices"] += 1
    counts["states of a search of all choices"] += int(last[1])


NUMBER_OF_A_SEND = re.compile(r"#\d+")


def listed(lines):
    """The endings, each by its length and its lines in any order without numbers of sends, and the words of the last line."""
    *told, last = lines.splitlines()
    found = []
    for line in told:
        if line.startswith("ending ") and line != "ending quiet":
            schedule = line.split(" ")[2:]
            found.append((schedule[0].count(",") + 1 if schedule else 0, []))
        else:
            found[-1][1].append(NUMBER_OF_A_SEND.sub("", line))
    return sorted((length, sorted(report)) for length, report in found), last.split()


def agree(ours, theirs):
    """Whether the program tells more states apart, and both tell the same endings as far as both went."""
    (our_endings, our_last), (their_endings, their_last) = map(parted, (ours, theirs))
    if our_last[-1] != their_last[-1] or int(our_last[1]) <= int(their_last[1]):
        return our_last[-1] == their_last[-1] == "cut" and is_beginning(our_endings, their_endings)
    return our_endings == their_endings or our_last[-1] == "cut" and is_beginning(our_endings, their_endings)


def is_beginning(some, others):
    return some.startswith(others) or others.startswith(some)


def parted(lines):
    """The lines of the endings, and the words of the last line."""
    endings_told, _, last = lines.rstrip("\n").rpartition("states ")
    return endings_told, ["states", *last.split()]


WALKED = "found by a walk, perhaps not the shortest; no others were looked for\n"
RING_STATES = 30_000


def ring(dice):
    """Four to six, each on a processor of its own with a lock, who take two locks that lie beside each other, in this or that order, once or for ever."""
    count = dice.randint(4, 6)
    lines = [f"l4 1 64\ncpus {count}"]
    for place in range(count):
        locks = [10 * (place + 1), 10 * ((place + 1) % count + 1)]
        first, second = locks if dice.random() < 0.8 else reversed(locks)
        lines.append(f"thread {place + 1}.1 cpu {place} space {place + 1}")
        lines += [f"ipc {thread}.1 nil never never" for thread in (first + 1, second + 1, second + 2, first + 2)]
        lines += ["jump 0"] * (dice.random() < 0.3)
    for place in range(count):
        lock, key = f"{10 * (place + 1) + 1}.1", f"{10 * (place + 1) + 2}.1"
        for thread, source in ((lock, key), (key, lock)):
            lines += [f"thread {thread} cpu {place} space 50", "ipc nil any never never", f"ipc nil {source} never never", "jump 0"]
    return "\n".join(lines) + "\n"


def entry(item):
    """The choice that an item of a schedule spells."""
    if item.startswith("c"):
        return OwnTurn(int(item[1:]))
    if item.startswith("t"):
        return Tick(int(item[1:]))
    return TakeLetter(*map(int, item.split(":")))


def ended_by(text, schedule):
    """The ending that a schedule comes to. Each of its items is a choice that can be made, and they come to rest."""
    machine = machines.read(text)
    walk = searches.Walk(machine)
    for choice in map(entry, schedule.split(",")):
        if choice not in walk.choices():
            sys.exit(f"the machine:\n{text}\nof a walk {schedule}: {choice} can't be made")
        walk.take(choice)
    if not walk.is_at_rest():
        sys.exit(f"the machine:\n{text}\na walk does not come to rest: {schedule}")
    return endings.Ending(machine, walk.history, schedule)


def walked(program, file, text, counts):
    """Asks whether anybody gets stuck in a large machine, and judges an answer by a walk."""
    with open(file, "w") as machine_file:
        machine_file.write(text)
    words = ["--placed", "--stuck", "--none", f"--states={RING_STATES}"]
    told = subprocess.run([program, "endings", file, *words], stdout=subprocess.PIPE, stderr=subprocess.STDOUT, text=True)
    is_walked = told.stdout.endswith(WALKED)
    counts[f"rings that {'a walk' if is_walked else 'a search'} answers with status {told.returncode}"] += 1
    if not is_walked:
        return
    ending = ended_by(text, told.stdout.split("\n")[0].split(" ")[2])
    is_right = ending.text(1) + WALKED == told.stdout and endings.is_asked(endings.question([file, *words]), ending) and told.returncode == endings.FOUND
    if not is_right:
        sys.exit(f"the machine:\n{text}\nthe program says, {told.returncode}:\n{told.stdout}\nits schedule comes to:\n{ending.text(1)}")
    counts["events of walks"] += ending.shown.count(",") + 1


def main(program, folder, count, part):
    dice, counts = random.Random(SEED + part), collections.Counter()
    for number in range(count):
        text = KINDS[number % len(KINDS)](dice).text()
        counts[f"machines of profile {text.split()[1]}"] += 1
        compared(program, f"{folder}/searches-{part}.l4", text, question(dice), counts)
        if number % 10 == 0:
            walked(program, f"{folder}/searches-{part}.l4", ring(dice), counts)
    for what, number in counts.items():
        print(f"{what}\t{number}")


if __name__ == "__main__":
    main(sys.argv[1], sys.argv[2], int(sys.argv[3]), int(sys.argv[4]))

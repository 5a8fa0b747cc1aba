"""Compares what `l4run endings` says of random machines with two judges over the second emulator's rules. Prints counts.

- A search in the same order, with the same steps tried alone: the very lines, those of --trace among them, standard error and status.
- By --memory alone the very lines of as many worlds by --states as docs/FORMATS.md counts for it: no more worlds than these, the endings of the whole search as far as they go,
  and `cut` where that has more worlds. Of a machine with some hundred threads that end at once a MiB is a few hundred worlds: there the first judge says the very lines too.
- A search of every step, in which no step is tried alone and two worlds are one only where all but clocks and numbers of sends is equal: the same reports, by as few steps, as far
  as both searches went.
"""

import collections
import pathlib
import random
import re
import subprocess
import sys

import endings
from second import expectations, machines, plain, randoms, scripts

SEED = 20_261_129
KINDS = (randoms.Conflicts, randoms.HandingOn, randoms.General, randoms.HandingOn, scripts.Serving, scripts.Turned)
DEPTH = 60
MOST_WORLDS = 2_000
# So many worlds may the search of every step find.
MOST_PLAIN = 400
LINES = ("waiting ..", "waiting 1.1#* *", "thread 1.1 ended ..", "thread * receiving ..", "thread 2.1 sending 0 * * *", "thread 1.1 * ..", "ending quiet")
# No report has one of these.
FAULTY = ("thread 1.1 reciving ..", "ending over", "waiting 1.1#* 2.1 2.1", "thread 1.1 .. ended")
EXPECTED = "never thread * sending ..\nthread 1.1 ended ..\nending quiet\n"
NUMBERS = ("1", "1", "2", "3", "9")
# Of so many machines one is searched by memory alone, and each that has an ending among so many worlds. Then it is crowded by so many threads, with numbers from this one on.
BY_MEMORY, MANY_WORLDS, CROWD, FIRST_OF_CROWD = 20, 200, (200, 340), 100_001

# It has an ending soon, where the send is taken, and one that comes late.
SOON = "l4 1 64\ncpus 1\nthread 1.1 cpu 0 space 1\nipc 2.1 nil zero never\nonerr 3\nend\n" + 600 * "add 1 1\n" + "thread 2.1 cpu 0 space 1\nipc nil any never never\n"


def limited(*words):
    return [*words, f"--depth={DEPTH}", f"--states={MOST_WORLDS}"]


def question(dice, expected, threads):
    """What is asked of the endings of a machine with these threads: a trace now and then."""
    words = ["--stuck"] if dice.random() < 0.3 else []
    words += [f"--rests={endings.some_of(dice, threads)}"] if words and dice.random() < 0.5 else []
    words += [f"{name}={dice.choice(LINES if dice.random() < 0.9 else FAULTY)}" for name in ("--with", "--never") if dice.random() < 0.3]
    if dice.random() < 0.4:
        return limited(*words, f"--trace={dice.choice(NUMBERS)}")
    words += dice.choice([[], ["--none"], ["--some"]])
    return limited(*words, *(word for word in ("--waits", f"--expect={expected}") if dice.random() < 0.3))


def same_lines(program, file, text, words, found, counts):
    """Asks both in the same words. Ends with what differs, where anything does, and answers what they say."""
    told, faults, status = said = answer(program, file, *words)
    asked = endings.question([file, *words])
    expected = expectations.read(asked.expect.read_bytes(), of_endings=True) if asked.expect else []
    wanted = endings.answer_of(found, asked, expected)
    if said != wanted:
        sys.exit(f"{words}, the machine:\n{text}\nthe program says, {status}:\n{told}{faults}\nthe second emulator says, {wanted[-1]}:\n{wanted[0]}{wanted[1]}")
    counts[f"answers with status {status}"] += 1
    counts["traces"] += asked.trace is not None and not status
    return told


def same_ends(text, said, counts):
    """Compares the reports that the program prints, and by how many steps each is come to, with those of the search of every step."""
    steps_of, steps, is_whole = ends_of(said)
    every = plain.ends(machines.read(text), MOST_PLAIN)
    both = min([DEPTH] + [found for found, whole in ((steps, is_whole), (every.steps, every.is_whole)) if not whole])
    if {report: least for report, least in steps_of.items() if least <= both} != every.within(both):
        sys.exit(f"the machine:\n{text}\nthe program says:\n{said}\nby every step, up to {both}:\n{every.within(both)}")
    counts["machines whose every step was tried"] += every.is_whole
    counts["reports that both found"] += len(every.within(both))


def ends_of(said):
    """By how few steps each report is come to, how deep all are told, and whether there are no more."""
    *parts, last = said.split("ending quiet\n")
    steps_of = {}
    for part in parts:
        head, _, report = part.partition("\n")
        steps_of.setdefault(plain.bare(report + "ending quiet\n"), int(head.split(" ")[3]))
    words = last.splitlines()[-1].split(" ")
    return steps_of, int(words[3]), words[4] == "whole"


def crowded(dice, text):
    """The text with threads in front that have one step, so that a search by one MiB looks at few more worlds than these take."""
    numbers = range(FIRST_OF_CROWD, FIRST_OF_CROWD + dice.randint(*CROWD))
    crowd = "".join(f"thread {number}.1 cpu 0 space 1\n" for number in numbers)
    return re.sub(r"^[ \t]*thread ", lambda found: crowd + found.group(), text, count=1, flags=re.MULTILINE)


def same_by_memory(program, file, text, counts):
    """Compares a search that is cut by memory with the same search cut by worlds, and with one that goes on."""
    most = endings.most_looked(machines.read(text), endings.question([file, "--memory=1"]))
    by_memory, by_worlds, whole = (answer(program, file, words) for words in ("--memory=1", f"--states={most}", f"--states={2 * most}"))
    (told, worlds), (all_told, all_worlds) = map(endings_and_worlds, (by_memory[0], whole[0]))
    is_cut = by_memory[0].endswith(" cut\n")
    if by_memory != by_worlds or worlds > most or is_cut != (all_worlds > most) or not is_cut and by_memory != whole or not all_told.startswith(told):
        sys.exit(f"the machine:\n{text}\nby one MiB, {most} worlds:\n{by_memory}\nby as many worlds:\n{by_worlds}\nby twice as many:\n{whole}")
    counts[f"searches by memory alone that are {'cut' if is_cut else 'whole'}"] += 1
    counts["endings before these were cut"] += is_cut * told.count("\nending quiet\n")


def answer(program, file, *words):
    told = subprocess.run([program, "endings", file, *words], stdout=subprocess.PIPE, stderr=subprocess.PIPE, text=True)
    return told.stdout, told.stderr, told.returncode


def endings_and_worlds(said):
    """The lines in front of the last one, without what is said of all endings, and how many worlds that counts."""
    lines, _, last = said.rpartition("worlds ")
    return lines.removesuffix(endings.ENDLESS), int(last.split(" ")[0])


def compared(program, file, text, dice, counts, expected):
    """Answers whether it has an ending among many worlds."""
    with open(file, "w") as machine_file:
        machine_file.write(text)
    found = endings.found_in(text, endings.question([file, *limited()]))
    said = same_lines(program, file, text, limited(), found, counts)
    same_ends(text, said, counts)
    same_lines(program, file, text, question(dice, expected, list(machines.read(text).threads)), found, counts)
    last = said.splitlines()[-1].split(" ")
    counts[f"machines whose search is {last[-1]}"] += 1
    counts["machines that go on for ever"] += "\nno ending: " in "\n" + said
    counts["worlds"] += int(last[1])
    counts["endings"] += said.count("\nending quiet\n")
    return int(last[1]) > MANY_WORLDS and "\nending quiet\n" in said


def compared_by_memory(program, file, text, dice, counts):
    """Compares searches that end where a MiB is counted for."""
    same_by_memory(program, file, text, counts)
    text = crowded(dice, text)
    with open(file, "w") as machine_file:
        machine_file.write(text)
    same_by_memory(program, file, text, counts)
    words = ["--memory=1", *dice.choice([[], [], ["--stuck"], ["--some"]])]
    same_lines(program, file, text, words, endings.found_in(text, endings.question([file, *words])), counts)
    counts["crowded machines"] += 1


def random_text(dice, number):
    """Of three machines two have a jump only behind an error, so that more of them end."""
    text = KINDS[number % len(KINDS)](dice).text()
    return randoms.ending_more(text) if number // len(KINDS) % 3 else text


def main(program, folder, count, part):
    dice, counts = random.Random(SEED + part), collections.Counter()
    expected = f"{folder}/endings-{part}.expected"
    with open(expected, "w") as file:
        file.write(EXPECTED)
    if part == 1:
        file = f"{folder}/endings-{part}.l4"
        pathlib.Path(file).write_text(SOON)
        compared_by_memory(program, file, SOON, dice, counts)
    for number in range(count):
        text = random_text(dice, number)
        profile, bits = text.split()[1:3]
        counts[f"machines of profile {profile}, {bits} bits"] += 1
        has_many = compared(program, f"{folder}/endings-{part}.l4", text, dice, counts, expected)
        if has_many or number % BY_MEMORY == 0:
            compared_by_memory(program, f"{folder}/endings-{part}.l4", text, dice, counts)
    for what, number in counts.items():
        print(f"{what}\t{number}")


if __name__ == "__main__":
    main(sys.argv[1], sys.argv[2], int(sys.argv[3]), int(sys.argv[4]))

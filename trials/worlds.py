"""Tries the second emulator's search of all worlds (second/worlds.py) on random machines, against what needs no belief in it, and prints counts.

- With the reduction and without there are the same endings, by as many steps.
- The history of each ending is one by the rules, ticks among it, and ends in a world in which nothing but clocks can go on.
- The steps that are told possible late are those that are possible with all clocks at their last value.
- A random walk by single steps and random ticks, and a random core run, that come to rest do so in an ending's world, and by no fewer steps.
"""

import collections
import random
import sys

from second import model, randoms, scripts, traces, worlds
from second.processors import OwnTurn, TakeLetter, Tick
from second.searches import Walk

SEED = 20_261_128
KINDS = (randoms.Conflicts, randoms.HandingOn, randoms.General, randoms.HandingOn, scripts.Serving, scripts.Turned)
DEPTH = 60
MOST_WORLDS = 1_000
WALKS = 2
WALK_STEPS = 30
# How far a clock goes on.
AHEAD = (1, 2, 6, 31, worlds.LONG)


class Differs(Exception):
    """What two ways say of a machine is not the same."""


def need(condition, what):
    if not condition:
        raise Differs(what)


def steps_by_code(found, depth):
    return {code: each.steps for code, each in found.worlds.items() if each.is_ending and each.steps <= depth}


def compare(machine, counts):
    """Searches with the reduction and without, as deep as both go."""
    every, fewer = (worlds.search(machine, DEPTH, MOST_WORLDS, how) for how in (worlds.All(), worlds.Reduction(machine)))
    depth = DEPTH if every.is_whole and fewer.is_whole else min(each.steps for each in (every, fewer) if not each.is_whole)
    need(steps_by_code(every, depth) == steps_by_code(fewer, depth), "endings with the reduction and without")
    counts["worlds without the reduction"] += len(every.worlds)
    counts["worlds with it"] += len(fewer.worlds)
    counts["machines whose search is whole without it"] += every.is_whole
    counts["machines whose search is whole with it"] += fewer.is_whole
    return fewer


def judge(machine, found, counts):
    """Each ending by its history."""
    for ending in found.endings():
        history = ending.history()
        world = model.world_of(machine, history)
        need(world.is_still() and not world.possible(), "an ending is still")
        need(len(history) - traces.count("tick", history) == ending.steps, "the number of steps")
        need(worlds.code(world) == worlds.code(ending.world), "the world of a history")
        counts["endings"] += 1


def walk(dice, machine, found, counts):
    """A random walk by the rules alone."""
    world, told = model.World(machine), 0
    for _ in range(WALK_STEPS):
        steps = world.possible()
        if not steps and world.is_still():
            end_is_told(found, worlds.code(world), told, counts, "walks that ended")
            return
        if not steps or dice.random() < 0.2:
            cpu = dice.randrange(machine.cpus)
            world.take("tick", cpu, world.clocks[cpu] + dice.choice(AHEAD))
            continue
        if dice.random() < 0.1:
            same_late(world, counts)
        world.take(*dice.choice(steps))
        told += 1
        counts["steps of walks"] += 1


def same_late(world, counts):
    """What is possible late, by two ways."""
    last = worlds.copied(world)
    last.clocks = [traces.LAST_CLOCK for _ in last.clocks]
    need(set(last.possible()) == set(worlds.possible(world)), "what is possible late")
    counts["worlds whose steps were compared"] += 1


def run(dice, machine, found, counts):
    """A random core run."""
    done = Walk(machine)
    for _ in range(2 * WALK_STEPS):
        choices = list(done.choices())
        if not choices:
            world = model.world_of(machine, done.history)
            told = len(done.history) - traces.count("tick", done.history)
            end_is_told(found, worlds.code(world), told, counts, "core runs that came to rest")
            return
        done.take(dice.choice(choices))


def end_is_told(found, code, told, counts, what):
    """A still world is told, where the search went as deep."""
    if not found.is_whole and told > found.steps:
        return
    need(code in found.worlds and found.worlds[code].is_ending and found.worlds[code].steps <= told, what)
    counts[what] += 1


def main(count, part):
    """Of three machines two have a jump only behind an error, so that more of them end."""
    dice, counts = random.Random(SEED + part), collections.Counter()
    for number in range(count):
        text = KINDS[number % len(KINDS)](dice).text()
        if number // len(KINDS) % 3:
            text = randoms.ending_more(text)
        machine = worlds.machines.read(text)
        counts[f"machines of profile {machine.profile}, {machine.format.bits} bits"] += 1
        try:
            found = compare(machine, counts)
            judge(machine, found, counts)
            for _ in range(WALKS):
                walk(dice, machine, found, counts)
                run(dice, machine, found, counts)
        except Differs as differs:
            sys.exit(f"{differs}, the machine:\n{text}")
    for what, number in counts.items():
        print(f"{what}\t{number}")


if __name__ == "__main__":
    main(int(sys.argv[3]), int(sys.argv[4]))

"""Who waits for whom in a world, where threads wait for each other in a circle, which sends are held, and what each thread did in a history."""

import collections

from second import model, threads, words

# The ErrorCode with which each of these steps ends an ipc.
CODES = {"stimeout": 2, "rtimeout": 3, "snobody": 4, "rnobody": 5, "scancel": 6, "rcancel": 7}
# Each instruction that a thread runs is one of these steps.
INSTRUCTIONS = ("local", "begin", "wait", "order")


def waits_text(world):
    """A line for each thread that waits, one for each circle, and one for each send that is held."""
    lines = [f"waits {words.spelled(thread)} {wait}" for thread, wait in waits(world)]
    lines += [circle_line(world, circle) for circle in in_order_of_first(world)]
    lines += [f"held {member.send.name}" for member in world.members.values() if is_held(world, member.send)]
    return "".join(line + "\n" for line in lines)


def waits(world):
    for thread, member in world.members.items():
        if member.send is not None:
            yield thread, f"{words.spelled(member.send.destination)} send"
        elif member.receives():
            yield thread, f"{words.spelled(member.source)} receive"


def is_held(world, send):
    """Whether this is a send of time zero that is not refused, though its receiver does not wait: that is in a call which may yet let it wait."""
    if send is None or send.period != 0 or world.is_nobody(send.destination):
        return False
    return world.members[send.destination].phase is not threads.Phase.RECEIVING and not world.may_refuse(send)


def partner(world, thread):
    """The one thread for which a thread waits, where that waits too. It does not wait for a destination that accepts its send."""
    member = world.members[thread]
    if member.send is not None:
        found = None if accepts_now(world, member.send) else member.send.destination
    else:
        found = member.source if member.receives() else None
    return found if found in world.members and waits_itself(world.members[found]) else None


def waits_itself(member):
    return member.send is not None or member.receives()


def accepts_now(world, send):
    receiver = world.members.get(send.destination)
    return receiver is not None and receiver.receives() and threads.accepts(world.machine, send.destination, receiver.source, send)


def circles(world):
    """The circles, each once and from its first thread in order of declaration on."""
    order = list(world.members)
    told = set()
    for first in order:
        seen = []
        thread = first
        while thread is not None and thread not in seen:
            seen.append(thread)
            thread = partner(world, thread)
        if thread is None:
            continue
        circle = seen[seen.index(thread) :]
        least = min(circle, key=order.index)
        if least not in told:
            told.add(least)
            start = circle.index(least)
            yield circle[start:] + circle[:start]


def in_order_of_first(world):
    order = list(world.members)
    return sorted(circles(world), key=lambda circle: order.index(circle[0]))


def circle_line(world, circle):
    word = "deadlock" if are_stuck(world, circle) else "circle"
    return " ".join([word, *map(words.spelled, circle)])


def are_stuck(world, circle):
    """Whether none of these can go on, with clocks as late as they may be, and nothing is under way that may be about one of them."""
    if world.owed or any(member.order is not None for member in world.members.values()):
        return False
    return not any(can_go_on(world, thread) for thread in circle)


def can_go_on(world, thread):
    member = world.members[thread]
    if member.alive and member.phase is threads.Phase.READY:
        return True
    if any(can(thread) for can in (world.can_rnobody, world.can_rcancel)) or world.can_rtimeout(thread, model.late):
        return True
    if any(world.can_deliver(name) for name in member.waiting):
        return True
    if member.send is None:
        return False
    name = member.send.name
    decisions = (world.can_queue, world.can_deliver, world.can_snobody, world.can_scancel, world.can_drop)
    return any(can(name) for can in decisions) or world.can_stimeout(name, model.late)


def counts_text(machine, history):
    """A line for each thread, with how many of its steps there are."""
    counts = collections.defaultdict(collections.Counter)
    for verb, field, *others in history:
        thread = getattr(field, "thread", field)
        if verb in INSTRUCTIONS:
            counts[thread]["turns"] += 1
        if verb == "begin":
            counts[thread]["sends"] += 1
        if verb == "deliver":
            counts[thread]["delivered"] += 1
            counts[others[0]]["received"] += 1
        if verb in CODES:
            counts[thread][CODES[verb]] += 1
    return "".join(counts_line(thread, counts[thread]) for thread in machine.threads)


def counts_line(thread, count):
    numbers = " ".join(f"{what} {count[what]}" for what in ("turns", "sends", "delivered", "received"))
    refused = " ".join(f"{code}:{count[code]}" for code in sorted(CODES.values()))
    return f"counts {words.spelled(thread)} {numbers} refused {refused}\n"

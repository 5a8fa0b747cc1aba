"""Why a step is not possible at a world: the first condition of its rule that does not hold, with
what the world has in its place.

The conditions of a rule are told in its order, each with the reason that is told where it does not
hold. They are asked one by one, so that each rests on those before it.
"""

from second import machines, threads, words
from second.threads import Phase


def of_ready(world, thread):
    yield thread in world.members, "Undeclared"
    member = world.members[thread]
    yield member.alive and member.phase is Phase.READY, f"NotReady {member.state()}"


def of_undecided(world, name):
    yield name in world.sends, "NotUndecided"


def of_receiver(world, name):
    yield from of_undecided(world, name)
    destination = world.sends[name].destination
    yield destination in world.members, f"NoReceiver {words.spelled(destination)}"


def of_waiting(world, name):
    yield from of_undecided(world, name)
    yield world.waits(name), "NotWaiting"


def of_no_turn_before(world, name):
    yield not world.must_wait(name), f"MustWait {words.spelled(world.sends[name].destination)}"


def of_receiving(world, thread):
    yield thread in world.members, "Undeclared"
    yield world.members[thread].receives(), f"NotReceiving {world.members[thread].state()}"


def of_none_accepted(world, thread):
    first = world.first_accepted(thread)
    yield first is None, first and f"AcceptsFirst {words.spelled(first.thread)}"


def of_local(world, thread):
    yield from of_ready(world, thread)
    yield threads.concerns_nobody_else(world.machine, world.members[thread].context), "NotLocal"


def of_begin(world, name):
    yield from of_ready(world, name.thread)
    context = world.members[name.thread].context
    yield name.number == context.begun + 1, f"NotNext {context.begun}"
    ipc = context.instruction()
    yield isinstance(ipc, machines.Ipc) and ipc.to != words.NIL, "NoSendPhase"


def of_queue(world, name):
    yield from of_receiver(world, name)
    destination = world.sends[name].destination
    yield world.members[destination].alive, f"ReceiverDeleted {words.spelled(destination)}"
    yield not world.waits(name), "Waiting"
    yield from of_no_turn_before(world, name)


def of_deliver(world, name, receiver, shown, actual, tag, message):
    yield from of_receiver(world, name)
    destination = world.sends[name].destination
    yield from of_receiving(world, destination)
    first = world.first_accepted(destination)
    yield first is not None, "AcceptsNone"
    yield first == name, f"NotFirst {words.spelled(first.thread)}"
    told = world.told(name)
    yield receiver == told[0], f"OtherReceiver {words.spelled(told[0])}"
    yield shown == told[1], f"OtherShown {words.spelled(told[1])}"
    yield actual == told[2], f"OtherSender {words.spelled(told[2])}"
    yield tag == told[3], f"OtherTag {told[3]:x}"
    yield message == told[4], "OtherWords"


def of_wait(world, thread):
    yield from of_ready(world, thread)
    context = world.members[thread].context
    ipc = context.instruction()
    is_ipc = isinstance(ipc, machines.Ipc) and ipc.to == words.NIL
    yield is_ipc and ipc.source != words.NIL, "NoReceivePhase"


def of_stimeout(world, name):
    yield from of_undecided(world, name)
    yield world.is_timed_out(name, world.clock), f"NotTimedOut {world.clock(name.thread)}"
    yield from of_no_turn_before(world, name)


def of_rtimeout(world, thread):
    yield from of_receiving(world, thread)
    yield world.has_passed(thread, world.clock), f"ReceiveNotPassed {world.clock(thread)}"
    yield from of_none_accepted(world, thread)


def of_snobody(world, name):
    yield from of_undecided(world, name)
    destination = world.sends[name].destination
    yield world.is_nobody(destination), f"HasDestination {words.spelled(destination)}"
    yield from of_no_turn_before(world, name)


def of_rnobody(world, thread):
    yield from of_receiving(world, thread)
    source = world.members[thread].source
    yield world.is_closed_for_nobody(thread), f"HasPartner {words.spelled(source)}"
    yield from of_none_accepted(world, thread)


def of_scancel(world, name):
    yield from of_waiting(world, name)
    yield name in world.send_wishes, "SendNotCancelled"


def of_rcancel(world, thread):
    yield from of_receiving(world, thread)
    yield world.members[thread].receive_wish, "ReceiveNotCancelled"


def of_drop(world, name):
    yield from of_waiting(world, name)
    sender = world.members[name.thread]
    yield not sender.alive, f"SenderNotDeleted {sender.state()}"


def of_order(world, caller, target, what):
    yield from of_ready(world, caller)
    context = world.members[caller].context
    order = context.instruction()
    told = machines.Order(target, what)
    gives = isinstance(order, machines.Order) and threads.is_admitted(world.machine, context, order)
    # Which order a thread gives says more than that it could not give this one.
    may_give = gives or threads.is_admitted(world.machine, context, told)
    yield may_give or target in world.members, f"NotAdmittedFor {words.spelled(target)}"
    yield may_give, "NotAdmittedThere"
    yield gives, "NoOrder"
    asked = f"{words.spelled(order.target)} {order.what}"
    yield order == told, f"OtherOrder {asked}"


def of_obey(world, caller):
    yield caller in world.members, "Undeclared"
    yield world.members[caller].order is not None, "AskedNothing"


def of_retarget(world, name):
    yield name in world.owed, "NotOwed"


def of_tick(world, cpu, clock):
    yield cpu < world.machine.cpus, "NoProcessor"
    yield clock > world.clocks[cpu], f"ClockAt {world.clocks[cpu]}"


RULES = {
    "local": of_local,
    "begin": of_begin,
    "queue": of_queue,
    "deliver": of_deliver,
    "wait": of_wait,
    "stimeout": of_stimeout,
    "rtimeout": of_rtimeout,
    "snobody": of_snobody,
    "rnobody": of_rnobody,
    "scancel": of_scancel,
    "rcancel": of_rcancel,
    "drop": of_drop,
    "order": of_order,
    "obey": of_obey,
    "retarget": of_retarget,
    "tick": of_tick,
}


def first_false(world, step):
    """The reason that is told of a step. None where it is possible."""
    verb, *fields = step
    return next((reason for holds, reason in RULES[verb](world, *fields) if not holds), None)

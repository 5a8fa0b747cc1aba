"""What an audit says of a step that is not possible: the words of the reason, and the steps that are possible instead."""

from second import model, reasons, traces

# The fixed words of each reason, behind which its value stands.
WORDS = {
    "Undeclared": "the thread is not declared",
    "NotReady": "the thread is not ready but",
    "NotLocal": "the instruction is an ipc with a phase or an order",
    "NotNext": "the send is not the next after number",
    "NoSendPhase": "the instruction has no send phase",
    "NoReceivePhase": "the instruction does not begin with a receive phase",
    "NotAdmittedFor": "the order is not admitted, as it is for the undeclared thread",
    "NotAdmittedThere": "the order is not admitted, as the threads are of different spaces",
    "NoOrder": "the instruction gives no admitted order",
    "OtherOrder": "the instruction gives the order",
    "NotUndecided": "no send of this name is undecided",
    "NoReceiver": "the destination is no declared thread but",
    "ReceiverDeleted": "the destination is the deleted thread",
    "Waiting": "the send waits in a list already",
    "NotWaiting": "the send waits in no list",
    "MustWait": "the send must wait for a retarget of",
    "NotReceiving": "the receiver is not receiving but",
    "AcceptsNone": "the receiver accepts no send in its list",
    "NotFirst": "the receiver accepts first the send of",
    "OtherReceiver": "the send goes to",
    "OtherShown": "the shown sender is",
    "OtherSender": "the actual sender is",
    "OtherTag": "the received tag is",
    "OtherWords": "the message has other words",
    "NotTimedOut": "the send does not time out at clock",
    "HasDestination": "the destination is the living thread",
    "SendNotCancelled": "no cancellation of the send is asked for",
    "SenderNotDeleted": "the sender is not deleted but",
    "ReceiveNotPassed": "the receive does not time out at clock",
    "HasPartner": "the receive is not from nobody but from",
    "AcceptsFirst": "the receiver accepts the waiting send of",
    "ReceiveNotCancelled": "no cancellation of the receive is asked for",
    "AskedNothing": "the thread has no undone order",
    "NoProcessor": "the machine has no such processor",
    "ClockAt": "the clock is already at",
    "NotOwed": "no retarget of this name is owed",
}


def because(reason):
    """The line of a reason: a kind, and its value."""
    kind, *value = reason.split()
    return " ".join(["because", WORDS[kind], *value]) + "\n"


def possible(world):
    """A line for each step but ticks that is possible."""
    return "".join(f"possible {traces.line(step)}\n" for step in world.possible())


def explanation(world, step):
    """Why a step is not possible at a world, and which steps are."""
    return because(reasons.first_false(world, step)) + possible(world)


def report(world):
    """The report of a world: it ends quiet where no step but a tick is possible, now or after any ticks."""
    return world.report(world.is_still())


def audit(machine, trace):
    """What an audit that explains and reports prints of a trace, and its fault."""
    said, fault = model.audit(machine, trace)
    if fault.startswith("trace line"):
        return "", fault
    world = model.World(machine)
    for step in traces.read(trace):
        if reasons.first_false(world, step) is not None:
            return explanation(world, step) + report(world), fault
        world.take(*step)
    return said + report(world), fault

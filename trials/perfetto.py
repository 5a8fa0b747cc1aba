"""Makes a picture of time for Perfetto of a run or a replay: a row for each thread under its processor, a bar where it sends or receives, and an arrow
for each delivery. A step is a microsecond there, as traces count no other time; clocks are counters.

    l4run run FILE --json | trials/perfetto.py FILE >steps.json

Open ui.perfetto.dev in a browser (or chrome://tracing in Chromium) and drag steps.json into it, or press `Open trace file`. Nothing is sent anywhere:
that page works on the file in the browser.
"""

import json
import re
import sys

# What leaves a thread in the phase that it is in.
STAYS = {"local", "queue", "order", "obey", "retarget", "deliver"}


class Picture:
    def __init__(self, machine):
        self.cpu_of = {thread: int(cpu) for thread, cpu in re.findall(r"^thread (\S+) cpu (\d+)", machine, re.M)}
        self.row_of = {thread: row for row, thread in enumerate(self.cpu_of, 1)}
        # The phase that a thread is in, and since which step.
        self.phases = {}
        self.events = [self.named("process_name", cpu, {}, f"processor {cpu}") for cpu in sorted({*self.cpu_of.values()})]
        self.events += [self.named("thread_name", self.cpu_of[thread], self.at(thread), thread) for thread in self.cpu_of]

    def named(self, what, cpu, at, name):
        return {"ph": "M", "name": what, "pid": cpu + 1, **at, "args": {"name": name}}

    def at(self, thread):
        return {"pid": self.cpu_of[thread] + 1, "tid": self.row_of[thread]}

    def close(self, thread, step):
        name, since, told = self.phases.pop(thread, (None, step, {}))
        if name:
            self.events.append({"ph": "X", "name": name, "ts": since, "dur": step - since, **self.at(thread), "args": told})

    def open(self, thread, name, step, told):
        self.close(thread, step)
        self.phases[thread] = (name, step, told)

    def mark(self, thread, step, told):
        self.events.append({"ph": "i", "s": "t", "name": told["kind"], "ts": step, **self.at(thread), "args": told})

    def arrow(self, sender, receiver, step, name):
        begins = {"ph": "s", "id": name, "name": "message", "cat": "ipc", "ts": step, **self.at(sender)}
        self.events += [begins, {**begins, "ph": "f", "bp": "e", **self.at(receiver)}]

    def take(self, step, told):
        kind = told["kind"]
        sender = told["send"].split("#")[0] if "send" in told else None
        thread = told.get("thread") or told.get("caller") or sender
        if kind == "tick":
            self.events.append({"ph": "C", "name": "clock", "ts": step, "pid": int(told["cpu"]) + 1, "args": {"us": int(told["clock"])}})
            return
        if kind == "begin":
            self.open(thread, f"send to {told.get('to', '?')}", step, told)
        elif kind == "wait":
            self.open(thread, "receive", step, told)
        elif kind not in STAYS:
            self.close(thread, step)
        if kind == "deliver":
            self.close(sender, step)
            self.close(told["receiver"], step)
            self.arrow(sender, told["receiver"], step, told["send"])
            thread = told["receiver"]
        self.mark(thread, step, told)


def main(file):
    with open(file) as text:
        picture = Picture(text.read())
    # Lines of a report, and of what stands behind a trace, are no steps.
    steps = {"local", "begin", "wait", "tick", "stimeout", "rtimeout", "snobody", "rnobody", "scancel", "rcancel", "drop"} | STAYS
    told = [step for step in map(json.loads, sys.stdin) if step["kind"] in steps]
    for number, step in enumerate(told, 1):
        picture.take(number, step)
    for thread in list(picture.phases):
        picture.close(thread, len(told) + 1)
    json.dump({"traceEvents": picture.events, "displayTimeUnit": "ns"}, sys.stdout)


main(*sys.argv[1:])

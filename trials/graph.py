"""Makes a graph of the endings of a machine text, in the language of Graphviz: a box for each ending, red where a send is undecided. Endings of
`--placed` hang on a tree of the choices that their schedules make; others hang on the start, with the length of a shortest history.

    l4run endings FILE --json | trials/graph.py | dot -Tsvg >endings.svg
    l4run endings FILE --placed --json | trials/graph.py | dot -Tsvg >endings.svg
"""

import json
import sys

HEAD = """digraph endings {
    node [fontname="monospace", fontsize=10, shape=point];
    edge [fontname="monospace", fontsize=9];"""
WIDEST = 60


def endings_of(objects):
    """Each ending: its object, and those of its report."""
    found = []
    for told in objects:
        if told["kind"] in ("ending", "placed"):
            found.append((told, []))
        elif found and told["kind"] in ("thread", "waiting", "deadlock"):
            found[-1][1].append(told)
    return found


def way_to(ending):
    """What leads to an ending: the items of its schedule, or how many steps."""
    if ending["kind"] == "ending":
        return (f"{ending['steps']} steps, ending {ending['ending']}",)
    return tuple(item for items in ending["schedule"] for item in items.split(",") if item)


def quoted(text):
    return '"' + text.replace("\\", "\\\\").replace('"', '\\"').replace("\n", "\\l") + '"'


def box(ending, report):
    lines = [f"ending {ending['ending']}"]
    lines += [f"{told['thread']} {told['state']} {told['code']} from {told['from']}" for told in report if told["kind"] == "thread"]
    lines += [f"{told['send']} waits for {told['to']}" for told in report if told["kind"] == "waiting"]
    lines += ["deadlock " + " ".join(told["threads"]) for told in report if told["kind"] == "deadlock"]
    color = ", color=red" if any(told["kind"] == "waiting" for told in report) else ""
    return f"[shape=box, label={quoted(''.join(line + chr(10) for line in lines))}{color}]"


class Tree:
    def __init__(self, found):
        self.ends, self.choices, self.names = {}, {(): {}}, {}
        for ending, report in found:
            way = way_to(ending)
            self.ends.setdefault(way, []).append((ending, report))
            for length, item in enumerate(way):
                self.choices.setdefault(way[:length], {})[item] = way[: length + 1]
                self.choices.setdefault(way[: length + 1], {})

    def name(self, way):
        return self.names.setdefault(way, f"n{len(self.names)}")

    def after(self, way, items):
        """Where a choice leads, over all places where there is no choice."""
        while len(self.choices[way]) == 1 and way not in self.ends:
            (item, way), *_ = self.choices[way].items()
            items = [*items, item]
        return way, ",".join(items)

    def lines(self):
        left = [()]
        while left:
            way = left.pop()
            for ending, report in self.ends.get(way, []):
                yield f"    {self.name(way)} {box(ending, report)};"
            for item, behind in self.choices[way].items():
                end, text = self.after(behind, [item])
                text = text if len(text) <= WIDEST else text[: WIDEST - 2] + ".."
                yield f"    {self.name(way)} -> {self.name(end)} [label={quoted(' ' + text)}];"
                left.append(end)


print(HEAD)
for line in Tree(endings_of(map(json.loads, sys.stdin))).lines():
    print(line)
print("}")

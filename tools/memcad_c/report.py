"""The printed reports of memcad, and the states in them."""

import json
import re
from dataclasses import dataclass, field


@dataclass
class Edge:
    """A block, or a structure of a predicate: whole, or a segment up to another node."""

    kind: str
    at: str
    name: str
    fields: list = field(default_factory=list)
    arguments: list = field(default_factory=list)
    end: str = ""
    end_arguments: list = field(default_factory=list)


@dataclass
class State:
    """A symbolic state: the nodes of variables, edges, and what is known of numbers."""

    variables: list
    edges: list
    atoms: list
    text: str

    def block(self, node):
        return next((it for it in self.edges if it.kind == "block" and it.at == node), None)

    def node(self, path):
        """The node of `x->f->g`, or None where it is not known."""
        names = path.split("->")
        node = self.variable(names[0])
        for name in names[1:]:
            block = self.block(node) if node else None
            node = dict(block.fields).get(name) if block else None
        return node

    def variable(self, name):
        """The node of a variable: of several of a name the last one, which is the innermost call's."""
        found = [
            node for text, node in self.variables if text == name or re.fullmatch(re.escape(name) + r"\.\d+", text)
        ]
        return found[-1] if found else None


@dataclass
class Alarm:
    """A place where something may go wrong, with a script on which it does, where memcad gives one."""

    place: tuple
    unmet: list
    state: State
    script: object = None


@dataclass
class Invariant:
    """A state in which a loop may begin a turn."""

    place: tuple
    number: int
    state: State


@dataclass
class Report:
    """All lines of a report."""

    alarms: list = field(default_factory=list)
    invariants: list = field(default_factory=list)


def split_top(text):
    """The parts between the commas that stand in no brackets."""
    parts, depth, start = [], 0, 0
    for i, it in enumerate(text):
        depth += (it in "({[") - (it in ")}]")
        if it == "," and depth == 0:
            parts.append(text[start:i])
            start = i + 1
    parts.append(text[start:])
    return [it.strip() for it in parts if it.strip()]


def parse_edge(text):
    block = re.fullmatch(r"(\w+) -> (\w+)\{(.*)\}", text)
    if block:
        fields = [tuple(it.split(":")) for it in split_top(block[3])]
        return Edge("block", block[1], block[2], [(name, None if node == "?" else node) for name, node in fields])
    found = re.fullmatch(r"(\w+)\((.*)\)", text)
    if not found:
        return None
    if " -> " in found[2]:
        before, after = found[2].split(" -> ")
        start, end = split_top(before), split_top(after)
        return Edge("segment", start[0], found[1], [], start[1:], end[0], end[1:])
    inner = split_top(found[2])
    return Edge("whole", inner[0], found[1], [], inner[1:])


def parse_state(text):
    parts = [it.strip() for it in text.split(";")]
    parts += ["-"] * (3 - len(parts))
    variables = [] if parts[0] == "-" else [tuple(it.rsplit("=", 1)) for it in parts[0].split(" ")]
    edges = [] if parts[1] == "-" else [parse_edge(it) for it in split_top(parts[1])]
    atoms = [] if parts[2] == "-" else split_top(parts[2])
    return State(variables, [it for it in edges if it], atoms, text)


def parse_script(text):
    """The lines of a script, which stand parted by blanks; `-` is the empty script."""
    return [] if text == "-" else [json.loads(it) for it in text.split(" ")]


def parse_report(text):
    report = Report()
    for line in text.splitlines():
        if line.startswith("real: ") and report.alarms:
            report.alarms[-1].script = parse_script(line.removeprefix("real: "))
        found = re.match(r"alarm at (\d+):(\d+) ([^:]*): (.*)$", line)
        if found:
            report.alarms.append(Alarm((int(found[1]), int(found[2])), found[3].split(), parse_state(found[4])))
        found = re.match(r"at (\d+):(\d+) #(\d+): (.*)$", line)
        if found:
            report.invariants.append(Invariant((int(found[1]), int(found[2])), int(found[3]), parse_state(found[4])))
    return report

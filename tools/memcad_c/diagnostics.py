"""Alarms in the words of the user's program."""

import re
from dataclasses import dataclass, field

from pycparser import c_ast

from .facts import nodes_below
from .kinds import Array, Opaque
from .messages import Place
from .names import OWN
from .reading import place_of
from .structs import leaves

RULES = {
    "null-deref": "a pointer is followed that may be null",
    "use-after-free": "a pointer is followed to memory that may be freed",
    "invalid-pointer": "a pointer is followed to memory that is not known to be allocated",
    "uninitialized": "a value is used that may never have been set",
    "bad-free": "what is freed may not be allocated",
    "assertion": "an assertion may fail",
    "shape": "memory may not have the shape that is asserted",
    "leak": "memory may still be allocated where none may be",
    "bounds": "an index may be outside its array",
    "division": "a divisor may be 0",
    "not-translated": "a construct has no translation",
    "not-proved": "the analysis gives no answer",
}


@dataclass
class Diagnostic:
    """One message at one place, with what explains it."""

    place: Place
    rule: str
    message: str
    notes: list = field(default_factory=list)
    state: object = None
    script: list = field(default_factory=list)
    level: str = "error"

    def lines(self, source):
        made = [f"{self.place}: {self.level}: {self.message} [{self.rule}]"]
        text = source.splitlines()
        if 0 < self.place.line <= len(text):
            line = text[self.place.line - 1].replace("\t", " ")
            made.append(f"{self.place.line:5} | {line}")
            made.append(f"      | {' ' * (self.place.column - 1)}^")
        return made + [f"      = {it}" for it in self.notes]


class Explainer:
    """Turns alarms and faults of runs into diagnostics."""

    def __init__(self, translation):
        self.translation = translation
        self.program = translation.program

    # Alarms

    def of_alarm(self, alarm):
        origin = self.translation.text.origin(*alarm.place)
        what = alarm.unmet[0] if alarm.unmet else ""
        if what == "NoBlock":
            made = self.no_block(origin, alarm)
        elif what == "Uninit":
            made = self.uninitialised(origin, self.user_name(alarm.unmet[1]), origin.place)
        elif what == "UninitField":
            made = self.uninitialised_field(origin, alarm)
        elif what == "NoShape":
            made = Diagnostic(origin.place, "shape", f"'{origin.subject}' may not be a '{alarm.unmet[1]}' here")
        elif what == "NotEmpty":
            made = Diagnostic(origin.place, "leak", "memory may still be allocated here")
        else:
            made = self.failed(origin, "may")
        made.state = alarm.state
        made.notes += [f"here {it}" for it in self.words(alarm.state, origin.function)]
        made.notes += self.callers(origin.function)
        return made

    def no_block(self, origin, alarm):
        node = alarm.unmet[1]
        found = [it for it in origin.accesses if alarm.state.node(it.text) == node]
        access = found[0] if found else (origin.accesses[0] if len(origin.accesses) == 1 else None)
        shown, place = (access.shown, access.place) if access else ("a pointer", origin.place)
        if origin.meaning == "free":
            return Diagnostic(place, "bad-free", f"'{shown}' may not be allocated here, when it is freed")
        if node == "0" or f"{node} in [0,0]" in alarm.state.atoms or f"{node}=0" in alarm.state.atoms:
            return Diagnostic(place, "null-deref", f"'{shown}' may be null here{self.source_of(shown, origin)}")
        rule, what = "invalid-pointer", "may be null, freed or unknown memory here"
        if f"{node} in [1," in " ".join(alarm.state.atoms) or f"{node}!=0" in alarm.state.atoms:
            rule, what = "use-after-free", "may point to freed memory here"
        return Diagnostic(place, rule, f"'{shown}' {what}{self.source_of(shown, origin)}")

    def uninitialised(self, origin, name, place):
        return Diagnostic(place, "uninitialized", f"'{name}' may be used here before it has a value")

    def uninitialised_field(self, origin, alarm):
        node, name = alarm.unmet[1], alarm.unmet[2]
        found = [it for it in origin.accesses if alarm.state.node(it.text) == node]
        access = found[0] if found else (origin.accesses[0] if origin.accesses else None)
        shown, place = (f"{access.shown}->{name}", access.place) if access else (name, origin.place)
        return self.uninitialised(origin, shown, place)

    def failed(self, origin, may):
        """An assertion: the user's, or one that the translation has added."""
        subject, is_null = origin.subject, origin.meaning == "null"
        if is_null:
            be = "may be" if may == "may" else "is"
            return Diagnostic(
                origin.place, "null-deref", f"'{subject}' {be} null here{self.source_of(subject, origin)}"
            )
        words = {
            "bounds": ("bounds", f"the index of '{subject}' {may} be outside the array"),
            "division": ("division", f"'{subject}' {may} be 0 here, and something is divided by it"),
            "overflow": ("division", f"the result of '{subject}' {may} be no int here"),
            "badfree": ("bad-free", f"'{subject}' {may} be a variable here, which cannot be freed"),
        }
        rule, message = words.get(origin.meaning, ("assertion", f"the assertion '{subject}' {may} fail"))
        return Diagnostic(origin.place, rule, message)

    # Faults of runs

    def of_fault(self, kind, line, column, script, culprit=None):
        """A fault that a run of the translated program has, with the script that leads to it; the pointer, where known."""
        origin = self.translation.text.origin(line, column)
        access = culprit or (origin.accesses[-1] if origin.accesses else None)
        shown, place = (access.shown, access.place) if access else ("a pointer", origin.place)
        names = f"'{shown}'" if culprit else self.alternatives(origin)
        if kind == "null":
            made = Diagnostic(place, "null-deref", f"{names} is null here{self.source_of(shown, origin)}")
        elif kind == "freed":
            made = Diagnostic(place, "use-after-free", f"{names} points to freed memory here")
        elif kind == "uninit":
            names = " or ".join(f"'{it}'" for it in dict.fromkeys(origin.reads)) or "a value"
            made = Diagnostic(origin.place, "uninitialized", f"{names} is used here, and was never set")
        elif kind == "badfree":
            made = Diagnostic(place, "bad-free", f"'{shown}' is not allocated here, when it is freed")
        elif kind == "notempty":
            made = Diagnostic(origin.place, "leak", "memory is still allocated here")
        elif kind == "shape":
            made = Diagnostic(origin.place, "shape", f"'{origin.subject}' has not the shape that is asserted")
        else:
            made = self.failed(origin, "does")
            made.message = made.message.replace("does fail", "fails").replace("does be", "is")
        made.script = script
        made.notes.append(f"a run comes here: {self.script_words(script)}")
        made.notes += self.callers(origin.function)
        return made

    def alternatives(self, origin):
        names = list(dict.fromkeys(f"'{it.shown}'" for it in origin.accesses)) or ["a pointer"]
        return " or ".join(names)

    def script_words(self, script):
        words = []
        for it in script:
            if it[0] == "malloc":
                words.append("malloc fails" if it[1] == 0 else "malloc")
            elif it[0] == "input":
                words.append(f"input {it[1]}")
            else:
                words.append(f"a structure of {len(it[2])} blocks")
        return ", ".join(words[:12]) + (", .." if len(words) > 12 else "") if words else "with no input"

    # Words

    def user_name(self, text):
        """The user's name of a variable of the translated program."""
        name = re.sub(r"\.\d+$", "", text)
        for function in self.program.functions.values():
            for it in function.locals:
                if it.text == name:
                    return it.name
        return name

    def is_followed(self, tag, name):
        """Whether the values of a struct's field are followed."""
        if tag not in self.program.structures:
            return True
        found = next((it for it in leaves(self.program, tag) if it.text == name), None)
        return found is None or not isinstance(found.kind, (Opaque, Array)) or bool(found.slots)

    def source_of(self, shown, origin):
        """Where a variable's last value before this place comes from, if that is a call."""
        function = self.program.functions.get(origin.function)
        if function is None or not shown.isidentifier():
            return ""
        found = None
        for node in nodes_below(function.node.body):
            right = value_given(node, shown)
            place = place_of(right, self.translation.path) if right is not None else None
            if place and (place.line, place.column) <= (origin.place.line, origin.place.column):
                found = right
        while isinstance(found, c_ast.Cast):
            found = found.expr
        if isinstance(found, c_ast.FuncCall) and isinstance(found.name, c_ast.ID):
            return f" (from {found.name.name} at {place_of(found).short()})"
        return ""

    def words(self, state, function):
        """A state in words, a sentence for each variable of the user's."""
        found = self.program.functions.get(function)
        own = {it.text: it.name for it in found.locals} if found else {}
        made = {}
        for text, node in state.variables:
            name = re.sub(r"\.\d+$", "", text)
            if name in own and not name.startswith(OWN):
                made[own[name]] = f"'{own[name]}' {self.node_words(node, state)}"
        return ["; ".join(list(made.values())[:8])] if made else []

    def node_words(self, node, state):
        if node == "0":
            return "is null"
        for edge in state.edges:
            if edge.at == node and edge.kind == "block":
                return f"points to a struct {edge.name}"
            if edge.at == node and edge.kind == "whole":
                return f"is a '{edge.name}'"
            if edge.at == node and edge.kind == "segment":
                return f"begins a part of a '{edge.name}'"
        numbers = [it for it in state.atoms if it.startswith(f"{node} in ")]
        return range_words(numbers[0].split(" in ")[1]) if numbers else "is not known"

    def callers(self, name):
        """The calls of a function, if it has any."""
        made = []
        for function in self.program.functions.values():
            for node in nodes_below(function.node.body):
                if isinstance(node, c_ast.FuncCall) and getattr(node.name, "name", "") == name:
                    made.append(f"'{function.name}' at {place_of(node).short()}")
        return [f"called from {', '.join(made[:4])}"] if made else []


def range_words(text):
    """`[1,1]` as `is 1`."""
    low, high = text.strip("[]").split(",")
    if low == high:
        return f"is {low}"
    if high == "4611686018427387903":
        return "is some address"
    return f"is from {low} to {high}"


def value_given(node, name):
    """The right side, if a node gives the variable of this name a value."""
    if isinstance(node, c_ast.Decl) and node.name == name:
        return node.init
    if isinstance(node, c_ast.Assignment) and isinstance(node.lvalue, c_ast.ID) and node.lvalue.name == name:
        return node.rvalue
    return None


def distinct(diagnostics):
    """Of several diagnostics with one place and one message the first."""
    found = {}
    for it in diagnostics:
        found.setdefault((it.place, it.message), it)
    return sorted(found.values(), key=lambda it: it.place)

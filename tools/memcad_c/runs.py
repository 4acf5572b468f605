"""Looking for a run that goes wrong, where the analysis gives no answer: short random scripts for `memcad run`."""

import json
import os
import random
import re
import tempfile
import time
from dataclasses import dataclass, field

TOKENS = re.compile(r"->|!=|<=|>=|[A-Za-z_]\w*|\d+|[(){}:;,=+-]")
LONGEST = 60
FUEL = "4000"
FUEL_OF_ALARMS = "20000"


# Structures of a definition


@dataclass
class Rule:
    """A rule of a definition: the fields of its block, its calls, its equations."""

    block: object = None
    calls: list = field(default_factory=list)
    equal: list = field(default_factory=list)


def parse_definitions(text):
    """The predicates of a file of definitions; what is beyond equations is left to memcad to judge."""
    tokens, predicates = TOKENS.findall(text), {}
    at = 0
    while at < len(tokens):
        name, at = tokens[at + 1], at + 3
        parameters = []
        while tokens[at] != ")":
            if tokens[at] not in (",", "int", "ptr"):
                parameters.append(tokens[at])
            at += 1
        at, rules = at + 2, []
        while tokens[at] == "rule":
            rule, at = parse_rule(tokens, at + 2)
            rules.append(rule)
        predicates[name], at = (parameters, rules), at + 1
    return predicates


def parse_rule(tokens, at):
    rule = Rule()
    while tokens[at] != "}":
        end = at
        depth = 0
        while tokens[end] != ";" or depth:
            depth += (tokens[end] in "{(") - (tokens[end] in "})")
            end += 1
        add_item(rule, tokens[at:end])
        at = end + 1
    return rule, at + 1


def add_item(rule, item):
    if item[1] == "->":
        rule.block = (item[2], dict(zip(item[4:-1:4], item[6:-1:4])))
    elif item[1] == "(":
        rule.calls.append((item[0], [it for it in item[2:-1] if it != ","]))
    elif "=" in item:
        at = item.index("=")
        if len(item) == at + 2:
            rule.equal.append((item[at - 1], item[at + 1]))


class Cell:
    """A value that may still be open."""

    def __init__(self, value=None):
        self.value, self.link = value, None

    def root(self):
        it = self
        while it.link is not None:
            it = it.link
        return it

    def unify(self, other):
        one, two = self.root(), other.root()
        if one is two:
            return True
        if one.value is not None and two.value is not None:
            return one.value == two.value
        if one.value is None:
            one.link = two
        else:
            two.link = one
        return True


class Maker:
    """Makes random small structures of predicates."""

    def __init__(self, predicates, structures, generator, first):
        self.predicates, self.structures = predicates, structures
        self.random, self.next = generator, first
        self.blocks = []

    def make(self, name, cells, depth):
        """Meets a predicate at the cells of its arguments; whether that went well."""
        parameters, rules = self.predicates[name]
        base = [it for it in rules if it.block is None]
        more = [it for it in rules if it.block is not None]
        wants_block = more and (not base or depth > 0 and self.random.random() < 0.75)
        rule = self.random.choice(more if wants_block else base)
        names = dict(zip(["this", *[it for it in parameters if it != "this"]], cells))
        if rule.block is not None:
            names["this"].unify(Cell(self.next))
            self.next += 8
            fields = {
                it: names.setdefault(label, Cell()) if label != "_" else Cell() for it, label in rule.block[1].items()
            }
            self.blocks.append((names["this"], rule.block[0], fields))
        for left, right in rule.equal:
            other = Cell(int(right)) if right.isdigit() else names.setdefault(right, Cell())
            if not names.setdefault(left, Cell()).unify(other):
                return False
        for callee, arguments in rule.calls:
            if not self.make(callee, [names.setdefault(it, Cell()) for it in arguments], depth - 1):
                return False
        return True

    def line(self, cell):
        blocks = []
        for at, tag, fields in self.blocks:
            values = [self.number(fields[name], is_pointer) for name, is_pointer in self.structures[tag]]
            blocks.append([at.root().value, tag, values])
        return ["shape", cell.root().value or 0, blocks]

    def number(self, cell, is_pointer):
        value = cell.root().value
        if value is None:
            value = 0 if is_pointer else self.random.randint(-2, 6)
        return value


# Runs


@dataclass
class Fault:
    """A run that goes wrong."""

    kind: str
    line: int
    column: int
    script: list


class Runner:
    """Extends scripts choice by choice, as a run asks for them."""

    def __init__(self, engine, program, definitions, structures, commands):
        self.engine, self.program, self.definitions = engine, program, definitions
        self.structures, self.commands = structures, commands
        self.predicates = parse_definitions(definitions)
        self.seen = {}

    def place_in(self, program, script):
        """The kind and the place of the fault that a program has on a script, or None."""
        with tempfile.TemporaryDirectory(prefix="memcad-c-") as folder:
            self.files(folder, program)
            found = re.match(r"fault: (\w+) at (\d+):(\d+)", self.run(folder, script, FUEL_OF_ALARMS))
            return (found[1], int(found[2]), int(found[3])) if found else None

    def faults_of(self, alarms):
        """The faults of the alarms that come with a script, one for each place, those with short scripts first."""
        faults = {}
        for it in sorted((it for it in alarms if it.script is not None), key=lambda it: len(it.script)):
            if it.place not in faults:
                found = self.place_in(self.program, it.script)
                if found:
                    faults[it.place] = Fault(*found, it.script)
        return list(faults.values())

    def files(self, folder, program):
        for name, text in (("p.c", program), ("p.d", self.definitions)):
            with open(os.path.join(folder, name), "w", encoding="utf-8") as file:
                file.write(text)

    def search(self, seconds, seed=1, more=20):
        """The shortest of the faults that are found in some seconds, or None; after one, a few more scripts are tried."""
        best = None
        until = time.monotonic() + seconds
        with tempfile.TemporaryDirectory(prefix="memcad-c-") as folder:
            self.files(folder, self.program)
            number = seed
            while time.monotonic() < until:
                found = self.one(folder, random.Random(number), until, len(best.script) if best else LONGEST)
                number += 1
                if found and (best is None or len(found.script) < len(best.script)):
                    best = found
                if best and number - seed > more:
                    break
        return best

    def one(self, folder, generator, until, longest):
        script, address = [], 1000
        said = self.run(folder, script)
        rate = generator.choice([0.05, 0.3])
        zeros = generator.choice([0.2, 0.5])
        while len(script) < longest and time.monotonic() < until:
            found = re.match(r"fault: (\w+) at (\d+):(\d+)", said)
            if found:
                return Fault(found[1], int(found[2]), int(found[3]), script)
            if not said.startswith("script: short"):
                return None
            script, said = self.extended(folder, script, generator, rate, zeros, address)
            address += 800
            if script is None:
                return None
        return None

    def extended(self, folder, script, generator, rate, zeros, address):
        """The script with an answer to what is asked next."""
        small = 0 if generator.random() < zeros else generator.choice([1, 1, 2, -1, -1, 3, 5])
        tries = [["input", small], ["malloc", 0 if generator.random() < rate else address]]
        before = script[-1][0] if script else ""
        tries.sort(key=lambda it: -self.seen.get((before, it[0]), 0))
        tries += [it for it in (self.structure(generator, address) for _ in range(8)) if it]
        for it in tries:
            said = self.run(folder, [*script, it])
            if not said.startswith("script: bad"):
                self.seen[(before, it[0])] = self.seen.get((before, it[0]), 0) + 1
                return [*script, it], said
        return None, ""

    def structure(self, generator, address):
        if not self.commands:
            return None
        name, arity = generator.choice(self.commands)
        if name not in self.predicates:
            return None
        maker = Maker(self.predicates, self.structures, generator, address)
        cell = Cell()
        made = maker.make(name, [cell, *[Cell(0) for _ in range(arity)]], generator.choice([0, 1, 3]))
        return maker.line(cell) if made else None

    def run(self, folder, script, fuel=FUEL):
        with open(os.path.join(folder, "p.s"), "w", encoding="utf-8") as file:
            file.writelines(json.dumps(it, separators=(",", ":")) + "\n" for it in script)
        return self.engine.command(folder, "run", "p.c", "p.d", "p.s", "--fuel", fuel).stdout


def commands_of(text):
    """The predicates that the program assumes, and how many arguments they have beside the pointer."""
    found = []
    for it in re.finditer(r"assume_shape\((\w+), (\w+)((?:, [^,)]+)*)\)", text):
        pair = (it[1], it[3].count(","))
        if pair not in found:
            found.append(pair)
    return found

"""Definitions proposed from structs: lists, trees, queues, circular lists and others."""

import re
from dataclasses import dataclass, field

from pycparser import c_ast

from .facts import nodes_below
from .kinds import Pointer
from .structs import emitted

BACK = re.compile(r"(prev|previous|pred|before|back|backward|blink|bwd|parent|up|father|owner)$", re.I)
PARENT = re.compile(r"(parent|up|father|owner)$", re.I)
SIBLING = re.compile(r"(sibling|next|brother|right_sibling)$", re.I)


RING = re.compile(r"ring|circ|cycl|cdll|csll", re.I)
ARITY = {"doubly": 1, "parented": 1, "shared_pointer": 1}


@dataclass
class Shape:
    """A predicate that a struct may have: its name, its further parameters, its text."""

    name: str
    tag: str
    parameters: list
    text: str
    family: str
    arguments: list = field(default_factory=list)


@dataclass
class Record:
    """The fields of a struct, by what they point to."""

    tag: str
    numbers: list
    selves: list
    others: dict

    @property
    def back(self):
        return next((it for it in self.selves if BACK.search(it)), None)

    @property
    def forward(self):
        return [it for it in self.selves if it != self.back]


def record(program, tag):
    numbers, selves, others = [], [], {}
    for text, kind in emitted(program, tag):
        if isinstance(kind, Pointer) and kind.tag == tag:
            selves.append(text)
        elif isinstance(kind, Pointer):
            others[text] = kind.tag
        else:
            numbers.append(text)
    return Record(tag, numbers, selves, others)


@dataclass(frozen=True)
class Use:
    """A shape command of the program: the predicate, the struct, how many further arguments."""

    predicate: str
    tag: str
    arity: int


def uses(program, kinds):
    """The shapes that the program itself names."""
    found = []
    for function in program.functions.values():
        for node in nodes_below(function.node.body):
            if isinstance(node, c_ast.FuncCall) and getattr(node.name, "name", "") in ("assume_shape", "assert_shape"):
                arguments = node.args.exprs if node.args else []
                kind = kinds.of(arguments[1]) if len(arguments) > 1 else None
                if isinstance(kind, Pointer):
                    use = Use(arguments[0].name, kind.tag, len(arguments) - 2)
                    if use not in found:
                        found.append(use)
    return found


class Proposer:
    """Writes definitions for the structs of a program."""

    def __init__(self, program, kinds, wanted=()):
        self.program = program
        self.kinds = kinds
        self.records = {
            tag: record(program, tag)
            for tag, it in program.structures.items()
            if it.complete and not it.added and it.fields
        }
        self.uses = uses(program, kinds)
        self.taken = {it.predicate for it in self.uses}
        self.wanted = set(wanted)

    def name(self, base, tag, arity):
        """The name that the program gives such a predicate, else a fresh one."""
        for it in self.uses:
            fits = it.tag == tag and it.arity == arity and bool(RING.search(it.predicate)) == (base == "ring")
            if fits and it.predicate not in self.given:
                self.given.append(it.predicate)
                return it.predicate
        made = base
        if made in self.taken or made in self.given:
            made = f"{base}_{tag}"
        while made in self.taken or made in self.given:
            made += "_"
        self.given.append(made)
        return made

    def block(self, of, names):
        fields = [f"{it}: {names.get(it, '_')}" for it in [*of.numbers, *of.selves, *of.others]]
        return f"this -> {of.tag} {{ {', '.join(fields)} }}"

    def children(self, of, shared):
        """The parts that a block owns through pointers to other structs."""
        names, items = {}, []
        for i, (name, tag) in enumerate(of.others.items()):
            target = self.primary.get(tag)
            if target is not None and not shared and not target.parameters:
                names[name] = f"c{i}"
                items.append(f"{target.name}(c{i});")
        return names, items

    # Families

    def linked(self, of, shared):
        """One field to its own struct."""
        name = self.name("list", of.tag, 0)
        shape = Shape(name, of.tag, [], "", "list")
        self.primary.setdefault(of.tag, shape)
        names, items = self.children(of, shared)
        next_field = of.selves[0]
        names[next_field] = "n"
        shape.text = (
            f"def {name}(this) {{\n  rule {{ this = 0; }}\n"
            f"  rule {{ {self.block(of, names)}; {' '.join([*items, f'{name}(n);'])} }}\n}}\n"
        )
        return [shape]

    def doubly(self, of, shared):
        name = self.name("dll", of.tag, 1)
        shape = Shape(name, of.tag, ["ptr p"], "", "dll", ["NULL"])
        self.primary.setdefault(of.tag, shape)
        names, items = self.children(of, shared)
        names.update({of.forward[0]: "n", of.back: "q"})
        shape.text = (
            f"def {name}(this, ptr p) {{\n  rule {{ this = 0; }}\n"
            f"  rule {{ {self.block(of, names)}; q = p; {' '.join([*items, f'{name}(n, this);'])} }}\n}}\n"
        )
        return [shape]

    def tree(self, of, shared):
        name = self.name("tree", of.tag, 0)
        shape = Shape(name, of.tag, [], "", "tree")
        self.primary.setdefault(of.tag, shape)
        names, items = self.children(of, shared)
        for i, it in enumerate(of.selves):
            names[it] = f"t{i}"
            items.append(f"{name}(t{i});")
        shape.text = f"def {name}(this) {{\n  rule {{ this = 0; }}\n  rule {{ {self.block(of, names)}; {' '.join(items)} }}\n}}\n"
        return [shape]

    def parented(self, of, shared):
        name = self.name("tree", of.tag, 1)
        shape = Shape(name, of.tag, ["ptr up"], "", "tree with parents", ["NULL"])
        self.primary.setdefault(of.tag, shape)
        names, items = self.children(of, shared)
        names[of.back] = "q"
        for i, it in enumerate(of.forward):
            names[it] = f"t{i}"
            above = "up" if SIBLING.search(it) else "this"
            items.append(f"{name}(t{i}, {above});")
        shape.text = f"def {name}(this, ptr up) {{\n  rule {{ this = 0; }}\n  rule {{ {self.block(of, names)}; q = up; {' '.join(items)} }}\n}}\n"
        return [shape]

    def skip(self, of, _):
        """A list of two levels: each block has a next one, and some a next one above."""
        name = self.name("skip", of.tag, 0)
        low = self.name(f"{name}_low", of.tag, -1)
        first, second = of.selves
        block = self.block(of, {first: "n", second: "u"})
        text = (
            f"def {name}(this) {{\n  rule {{ this = 0; }}\n  rule {{ {block}; {low}(n, u); {name}(u); }}\n}}\n"
            f"def {low}(this, ptr end) {{\n  rule {{ this = end; }}\n"
            f"  rule {{ {block}; u = 0; this != end; {low}(n, end); }}\n}}\n"
        )
        return [Shape(name, of.tag, [], text, "skip list")]

    def ring(self, of, _):
        """A circular list of blocks, in segments between two blocks of it."""
        if of.back is None:
            name = self.name("ring", of.tag, 0)
            part = self.name(f"{name}_part", of.tag, -1)
            block = self.block(of, {of.selves[0]: "n"})
            text = (
                f"def {name}(this) {{\n  rule {{ {block}; {part}(n, this); }}\n}}\n"
                f"def {part}(this, ptr end) {{\n  rule {{ this = end; }}\n  rule {{ {block}; {part}(n, end); }}\n}}\n"
            )
            return [Shape(name, of.tag, [], text, "ring")]
        name = self.name("ring", of.tag, 0)
        part = self.name(f"{name}_part", of.tag, -1)
        block = self.block(of, {of.forward[0]: "n", of.back: "q"})
        text = (
            f"def {name}(this) {{\n  rule {{ {block}; {part}(n, this, this, q); }}\n}}\n"
            f"def {part}(this, ptr before, ptr end, ptr last) {{\n  rule {{ this = end; last = before; }}\n"
            f"  rule {{ {block}; q = before; {part}(n, this, end, last); }}\n}}\n"
        )
        return [Shape(name, of.tag, [], text, "ring")]

    def queue(self, of, _):
        """A block with pointers to the first and the last block of a list."""
        (first, tag), (last, _) = list(of.others.items())[:2]
        inner = self.records[tag]
        name = self.name("queue", of.tag, 0)
        part = self.name(f"{name}_part", tag, -1)
        block = self.block(of, {first: "h", last: "t"})
        cell = self.block(inner, {inner.selves[0]: "n"})
        text = (
            f"def {name}(this) {{\n  rule {{ {block}; h = 0; t = 0; }}\n  rule {{ {block}; {part}(h, t); }}\n}}\n"
            f"def {part}(this, ptr t) {{\n  rule {{ {cell}; this = t; n = 0; }}\n"
            f"  rule {{ {cell}; this != t; {part}(n, t); }}\n}}\n"
        )
        return [Shape(name, of.tag, [], text, "queue")]

    def shared_pointer(self, of, _):
        """A list whose blocks all point to one and the same block."""
        name = self.name("shared_list", of.tag, 1)
        other = next(iter(of.others))
        block = self.block(of, {of.selves[0]: "n", other: "o"})
        text = (
            f"def {name}(this, ptr to) {{\n  rule {{ this = 0; }}\n  rule {{ {block}; o = to; {name}(n, to); }}\n}}\n"
        )
        return [Shape(name, of.tag, ["ptr to"], text, "list of one shared block", [None])]

    def header(self, of, shared):
        name = self.name(of.tag, of.tag, 0)
        shape = Shape(name, of.tag, [], "", "block")
        self.primary.setdefault(of.tag, shape)
        names, items = self.children(of, shared)
        shape.text = f"def {name}(this) {{ rule {{ {self.block(of, names)}; {' '.join(items)} }} }}\n"
        return [shape]

    # Choices

    def is_queue(self, of):
        """Whether a struct has two pointers to one kind of list."""
        both = [self.records.get(it) for it in list(of.others.values())[:2]]
        return len(both) == 2 and both[0] is both[1] is not None and len(both[0].selves) == 1

    def families(self, of):
        """The families that a struct may have, the likeliest first."""
        if not of.selves:
            return [self.header, self.queue] if self.is_queue(of) else [self.header]
        if len(of.selves) == 1:
            return [self.linked, self.ring, self.shared_pointer] if of.others else [self.linked, self.ring]
        if len(of.selves) == 2:
            if of.back:
                return [self.doubly, self.ring] if not PARENT.search(of.back) else [self.parented, self.tree]
            is_slots = [re.sub(r"_\d$", "", it) for it in of.selves]
            return [self.skip, self.tree] if is_slots[0] == is_slots[1] else [self.tree, self.skip]
        return [self.parented, self.tree] if of.back else [self.tree]

    def chosen(self, of, rank):
        """The families of a struct: those that the program's own names ask for, and the one of the rank."""
        families = self.families(of)
        picked = families[min(rank, len(families) - 1)]
        wanted = [it for it in self.uses if it.tag == of.tag]
        made = [self.family_for(it, families) for it in wanted]
        if of.tag in self.wanted:  # what a harness assumes is the same in each attempt
            made.insert(0, families[0])
        if rank or not made:
            made.append(picked)
        return list(dict.fromkeys(made))

    def family_for(self, use, families):
        """The family that a predicate of the program means: by its name, else by its number of arguments."""
        is_ring = bool(RING.search(use.predicate))
        fits = [it for it in families if (it == self.ring) == is_ring and ARITY.get(it.__name__, 0) == use.arity]
        return (fits or families)[0]

    def proposal(self, rank, shared=False, headers=True):
        """A whole file of definitions: of each struct its family of this rank, and what the program names."""
        self.given, self.primary = [], {}
        made = []
        order = sorted(self.records.values(), key=lambda it: (len(it.selves) == 0, len(it.others)))
        for of in order:
            if (
                not of.selves
                and not headers
                and of.tag not in self.wanted
                and not any(it.tag == of.tag for it in self.uses)
            ):
                continue
            for family in self.chosen(of, rank):
                made += family(of, shared)
        return made


def proposals(program, kinds, wanted=()):
    """Sets of shapes to try one after the other, each once; `wanted` are structs that need a shape."""
    proposer = Proposer(program, kinds, wanted)
    found, texts = [], []
    for rank, shared, headers in (
        (0, False, False),
        (0, True, False),
        (1, False, False),
        (0, False, True),
        (1, False, True),
        (2, True, False),
    ):
        try:
            shapes = proposer.proposal(rank, shared, headers)
        except (KeyError, IndexError, ValueError):
            continue
        text = "".join(it.text for it in shapes)
        if text not in texts:
            texts.append(text)
            found.append(shapes)
    return found


def text_of(shapes):
    return "".join(it.text for it in shapes)

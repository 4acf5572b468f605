"""Writing the body of one function: fragments, temporaries, scopes."""

from contextlib import contextmanager
from dataclasses import dataclass, field

from .kinds import Opaque, PlacePointer
from .messages import Place
from .names import OWN, fresh
from .output import Access, Fragment, Origin
from .reading import place_of
from .structs import declared, parts
from .values import Direct, Value


@dataclass
class Scope:
    """A block of C: the variables in it that are blocks of memory, and what it is the body of."""

    blocks: list = field(default_factory=list)
    loop: object = None
    is_switch: bool = False
    again: object = None


class Writer:
    """Keeps what has been written of a function."""

    def __init__(self, program, log, path, kinds):
        self.program = program
        self.log = log
        self.path = path
        self.kinds = kinds
        self.function = None
        self.fragments = []
        self.accesses, self.reads = [], []
        self.place = Place(path, 1)
        self.scopes = []
        self.taken = set()
        self.temporaries = 0
        self.tails = {}
        self.open_gotos = []
        self.hoisted = set()
        self.rest = []
        self.floating = False
        self.is_entry = False
        self.has_globals = False

    def place_of(self, node):
        return place_of(node, self.path)

    def refuse(self, node, construct, reason, instead):
        place = node if isinstance(node, Place) else self.place_of(node)
        self.log.refuse(place, construct, reason, instead)

    def note(self, node, message):
        place = node if isinstance(node, Place) else self.place_of(node)
        self.log.note(place, message)

    def access(self, text, shown, node, tag):
        self.accesses.append(Access(text, shown, self.place_of(node), tag))

    def emit(self, text, simple=False, meaning="", subject="", ends=False):
        """Writes a fragment that comes from the current place."""
        name = self.function.name if self.function else ""
        origin = Origin(self.place, name, self.accesses, meaning, subject, self.reads)
        self.fragments.append(Fragment(text, origin, simple, ends, self.floating))
        self.accesses, self.reads = [], []

    @contextmanager
    def at(self, node):
        """What is written within comes from this node's place."""
        before = self.place
        if node is not None:
            self.place = node if isinstance(node, Place) else self.place_of(node)
        try:
            yield
        finally:
            self.place = before

    @contextmanager
    def captured(self):
        """Gathers what is written within, in place of writing it."""
        before, self.fragments = self.fragments, []
        made = self.fragments
        try:
            yield made
        finally:
            self.fragments = before

    def flush(self, fragments):
        self.fragments.extend(fragments)

    # Temporaries

    def temporary(self, kind, value=None):
        """A fresh variable of a kind, with a value where one is given."""
        self.temporaries += 1
        text = fresh_temporary(self.temporaries)
        made = Direct(text, kind)
        pieces = parts(self.program, text, kind)
        if len(pieces) > 1:
            made.more = tuple(name for name, _ in pieces[1:])
        if value is None:
            self.declare_pieces(pieces)
            return made
        initial = [self.stored_text(value, kind), *self.rest_of(value, kind)]
        for i, (name, of_piece) in enumerate(pieces):
            self.emit(f"{declared(name, of_piece)} = {initial[i]};")
        return made

    def declare_pieces(self, pieces):
        """Declares variables; what is accessed belongs to the statement that comes next."""
        kept = self.accesses, self.reads
        for name, kind in pieces:
            self.accesses, self.reads = [], []
            self.emit(declared(name, kind) + ";")
        self.accesses, self.reads = kept

    def rest_of(self, value, kind):
        """What is stored in the further parts of a place pointer."""
        if not isinstance(kind, PlacePointer):
            return ()
        return value.more or self.program.representation(kind).rest_of_null()

    def stored_text(self, value, kind):
        """What is stored of a value: of a number that is not followed only that there is one."""
        if isinstance(kind, Opaque):
            return f"({' + '.join(value.touches)}) * 0" if value.touches else "0"
        return value.text

    def spill(self, value):
        """A value that stays the same whatever is written next."""
        if value.stable:
            return value
        if isinstance(value.kind, Opaque):
            for it in value.touches:
                if not it.startswith(OWN):
                    self.touch(it)
            return Value("input()", value.kind)
        made = self.temporary(value.kind, value)
        return Value(made.text, value.kind, stable=True, more=made.more, is_path=True, is_truth=value.is_truth)

    def touch(self, text, kind=None):
        """Reads an expression, and drops its value."""
        self.temporaries += 1
        self.emit(f"{declared(fresh_temporary(self.temporaries), kind)} = {text};")

    # Names

    def name(self, variable):
        """Gives a variable a name of its own in the function."""
        while True:
            text = fresh(variable.name, self.taken)
            if not isinstance(variable.kind, PlacePointer):
                break
            names = {name for name, _ in parts(self.program, text, variable.kind)[1:]}
            if not names & self.taken:
                self.taken |= names
                break
        variable.text = text
        return text

    # Scopes

    @contextmanager
    def scope(self, loop=None, is_switch=False):
        self.scopes.append(Scope([], loop, is_switch))
        try:
            yield self.scopes[-1]
        finally:
            self.scopes.pop()

    def free_blocks(self, scopes):
        """Frees the variables of these scopes that are blocks of memory."""
        for scope in reversed(scopes):
            for it in reversed(scope.blocks):
                self.emit(f"free({it.text}) /* variable */;")


def fresh_temporary(number):
    """The name of the numbered temporary."""
    return f"{OWN}{number}"

"""What a translation unit holds: structs, variables, functions."""

from dataclasses import dataclass, field

from .kinds import BROKEN, PlacePointer, StructValue


@dataclass
class Field:
    """A field as the user wrote it; fields of nested structs are flattened, `in.x` to `in_x`."""

    name: str
    kind: object
    place: object


@dataclass
class Structure:
    """A struct of the program, or one that the translation adds."""

    tag: str
    place: object
    fields: list = field(default_factory=list)
    complete: bool = False
    added: bool = False

    def find(self, name):
        return next((it for it in self.fields if it.name == name), None)


@dataclass(eq=False)
class Variable:
    """A variable: `text` is how the translated program names it, once that is decided."""

    name: str
    kind: object
    place: object
    function: object = None
    is_global: bool = False
    is_parameter: bool = False
    initial: object = None
    addressed: bool = False
    text: str = ""
    extern: bool = False

    @property
    def is_block(self):
        """Whether the variable is a block of memory in the translated program."""
        return self.addressed or isinstance(self.kind, StructValue)


@dataclass(eq=False)
class Function:
    """A function with its body."""

    name: str
    result: object
    parameters: list
    node: object
    place: object
    static: bool
    calls: set = field(default_factory=set)
    uses_globals: bool = False
    locals: list = field(default_factory=list)
    frees: set = field(default_factory=set)
    kept: list = field(default_factory=list)
    below: list = field(default_factory=list)
    text: str = ""


@dataclass
class PlaceRepresentation:
    """How the address of a variable or field of one kind is kept.

    `targets` are the fields that it may be the address of, each with its struct.  There is a pointer for
    each struct, of which one is not null, and a number that says which field it is, where there are several.
    A variable lives in a block of the first struct, in that field.
    """

    targets: list

    @property
    def tags(self):
        return list(dict.fromkeys(tag for tag, _ in self.targets))

    @property
    def tag(self):
        return self.targets[0][0]

    @property
    def field(self):
        return self.targets[0][1]

    @property
    def chooses(self):
        return len(self.targets) > 1

    def rest_of_null(self):
        """What follows the first pointer of a null place, and of a variable's."""
        return (*["NULL"] * (len(self.tags) - 1), "0") if self.chooses else ()


@dataclass
class Program:
    """A whole translation unit."""

    structures: dict = field(default_factory=dict)
    globals: list = field(default_factory=list)
    functions: dict = field(default_factory=dict)
    prototypes: dict = field(default_factory=dict)
    resolved: dict = field(default_factory=dict)
    constants: dict = field(default_factory=dict)
    representations: dict = field(default_factory=dict)
    statics: dict = field(default_factory=dict)
    allocators: dict = field(default_factory=dict)

    def structure(self, tag):
        return self.structures[tag]

    def representation(self, kind):
        """The representation of a place pointer's kind, by what it points to."""
        target = kind.target if isinstance(kind, PlacePointer) else kind
        return self.representations.get(target, BROKEN)

"""How structs stand in the translated program: nested structs and arrays become fields of their own."""

from dataclasses import dataclass

from .kinds import BROKEN, Array, PlacePointer, Pointer, StructValue, is_number, spelled
from .names import allowed

LONGEST_ARRAY = 32


@dataclass(frozen=True)
class Leaf:
    """A field of the translated struct: the user's path to it, its name there, its kind."""

    path: tuple
    text: str
    kind: object
    slots: int = 0


def slots_of(kind):
    """How many fields an array becomes: one for each pointer, else one that only stands for its memory."""
    if isinstance(kind, Array) and isinstance(kind.element, Pointer) and (kind.length or 0) <= LONGEST_ARRAY:
        return kind.length or 0
    return 0


def is_scalar_array(kind):
    return isinstance(kind, Array) and is_number(kind.element) and kind.length is not None


def leaves(program, tag):
    """The leaves of a struct, in order."""
    made, taken = [], set()
    for path, kind in paths(program, tag, ()):
        text = "_".join(path)
        while text in taken:
            text += "_"
        taken.add(text)
        made.append(Leaf(path, allowed(text), kind, slots_of(kind)))
    return made


def paths(program, tag, before):
    for it in program.structures[tag].fields:
        path = (*before, it.name)
        if isinstance(it.kind, StructValue) and it.kind.tag != tag:
            yield from paths(program, it.kind.tag, path)
        else:
            yield path, it.kind


def leaf(program, tag, path):
    """The leaf at a path, or None where the path is a whole nested struct."""
    return next((it for it in leaves(program, tag) if it.path == tuple(path)), None)


def slot(text, number):
    return f"{text}_{number}"


def choice(text):
    """The name of the number that says which field a place pointer means."""
    return f"{text}_field"


def emitted(program, tag):
    """The fields of the translated struct: how they are declared, and their kinds."""
    made = []
    for it in leaves(program, tag):
        if it.kind == BROKEN or isinstance(it.kind, StructValue):
            continue
        if it.slots:
            made += [(slot(it.text, i), it.kind.element) for i in range(it.slots)]
        else:
            made += parts(program, it.text, it.kind)
    return made or [("nothing", None)]


def parts(program, text, kind):
    """The variables or fields that hold one value: several for a place pointer that may mean several fields."""
    if isinstance(kind, PlacePointer):
        representation = program.representation(kind)
        if representation == BROKEN:
            return [(text, None)]
        pointers = [(text, Pointer(representation.tag))]
        pointers += [(f"{text}_in_{tag}", Pointer(tag)) for tag in representation.tags[1:]]
        return pointers + [(choice(text), None)] if representation.chooses else pointers
    return [(text, kind)]


def declared(text, kind):
    """`int x` or `struct node *x`."""
    return spelled(kind) + text


def definition(program, tag):
    """The text of the struct's definition."""
    fields = " ".join(f"{declared(text, kind)};" for text, kind in emitted(program, tag))
    return f"struct {tag} {{ {fields} }};"

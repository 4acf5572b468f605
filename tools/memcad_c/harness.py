"""A `main` for a function that is to be analysed by itself."""

from pycparser import c_ast

from .kinds import BOOL, INT, TEXT, Enumeration, Opaque, PlacePointer, Pointer, is_number
from .messages import Place
from .model import Function
from .names import ENTRY
from .output import Fragment
from .structs import leaves
from .values import Direct, Value, number


def entry_function(place):
    """A function for the harness to stand in."""
    body = c_ast.Compound([], None)
    node = c_ast.FuncDef(None, None, body, None)
    return Function(ENTRY, Opaque("int"), [], node, place, False, text=ENTRY)


class HarnessFault(Exception):
    """The function has a parameter that no harness can make."""


def write_harness(translator, function):
    """Calls a function with arguments of the shape of their types; gives the structs that need a shape."""
    writer = translator.writer()
    made = entry_function(Place(translator.path, function.place.line))
    writer.function, writer.is_entry, writer.has_globals = made, True, translator.has_globals
    writer.place = function.place
    writer.floating = True
    wanted = []
    writer.emit(f"int {ENTRY}() {{")
    if function.uses_globals:
        translator.make_globals(writer)
        for it in translator.stored_globals:
            assume_global(writer, it, wanted)
    texts = ["globals"] if function.uses_globals else []
    texts += ["NULL"] * len(function.kept)
    for it in function.parameters:
        texts += argument(writer, it, wanted)
    writer.emit(f"{function.text}({', '.join(texts)});")
    writer.emit("return 0; }")
    return [Fragment(it.text, it.origin, it.simple, it.ends, True) for it in writer.fragments], wanted


def assume_global(writer, variable, wanted):
    """A global may hold anything of its type when a function of the file is called."""
    place = writer.place_of_variable(variable, variable.place)
    if isinstance(place, Direct) and isinstance(variable.kind, Pointer):
        name = assumed(writer, variable.kind.tag, wanted)
        writer.emit(f"{place.text} = {name};")
    elif isinstance(place, Direct) and (variable.kind == INT or isinstance(variable.kind, Enumeration)):
        writer.emit(f"{place.text} = input();")
    elif isinstance(place, Direct) and variable.kind == BOOL:
        writer.emit(f"{place.text} = 0;")
        writer.emit(f"if (input() != 0) {place.text} = 1;")
    elif not isinstance(variable.kind, Opaque):
        writer.note(variable.place, f"'{variable.name}' holds its first value where the harness begins")


def assumed(writer, tag, wanted):
    """A fresh pointer whose structure has the shape of its type; the command is completed later."""
    made = writer.temporary(Pointer(tag))
    wanted.append(tag)
    writer.emit(f"assume_shape(@{tag}@, {made.text});")
    return made.text


def argument(writer, variable, wanted):
    """The texts of one argument."""
    kind = variable.kind
    if isinstance(kind, Pointer):
        return [assumed(writer, kind.tag, wanted)]
    if str(kind) == "_Bool":
        made = writer.temporary(kind, number(0))
        writer.emit(f"if (input() != 0) {made.text} = 1;")
        return [made.text]
    if kind == TEXT:
        return ["1"]
    if isinstance(kind, Opaque):
        return ["0"]
    if is_number(kind):
        return ["input()"]
    if isinstance(kind, PlacePointer):
        return place_argument(writer, kind, wanted)
    raise HarnessFault(f"'{variable.name}' of type '{kind}' is no argument that a harness can make")


def place_argument(writer, kind, wanted):
    """The address of a fresh variable that holds anything of its type."""
    representation = writer.program.representation(kind)
    tag, field = representation.tag, representation.field
    text = writer.temporary(Pointer(tag)).text
    writer.emit(f"{text} = /* variable */ malloc(sizeof(struct {tag}));")
    writer.emit(f"assume({text} != NULL);")
    for it in leaves(writer.program, tag):
        if it.text != field:
            writer.zero_leaf(text, it)
    target = kind.target
    value = assumed(writer, target.tag, wanted) if isinstance(target, Pointer) else "input()" if target == INT else "0"
    writer.write_direct(writer.direct(f"{text}->{field}", target), Value(value, target))
    return [text, *representation.rest_of_null()]


def complete(text, shapes):
    """Names the shapes in a harness's commands."""
    for shape in shapes:
        arguments = "".join(f", {it}" for it in shape.arguments)
        pieces = text.split(f"assume_shape(@{shape.tag}@, ")
        text = pieces[0]
        for it in pieces[1:]:
            name, rest = it.split(")", 1)
            text += f"assume_shape({shape.name}, {name}{arguments}){rest}"
    return text

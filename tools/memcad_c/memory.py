"""Places of values: variables, fields, what pointers point to; reading and writing them."""

from pycparser import c_ast, c_generator

from .collect import constant
from .facts import path_of
from .kinds import (
    BROKEN,
    STREAM,
    TEXT,
    VOID_POINTER,
    Array,
    Opaque,
    PlacePointer,
    Pointer,
    StructValue,
)
from .messages import Stop
from .model import Variable
from .structs import LONGEST_ARRAY, is_scalar_array, leaf, leaves, parts, slot
from .values import Chosen, Direct, Element, Slots, Value, Whole, arbitrary, null, number, touches_of
from .writer import Writer

GENERATOR = c_generator.CGenerator()


def shown(node):
    """An expression as the user may have written it."""
    return GENERATOR.visit(node)


class Memory(Writer):
    """Lowers lvalues."""

    def lvalue(self, node):
        """The place that an expression names."""
        if isinstance(node, c_ast.ID):
            return self.variable_place(node)
        if isinstance(node, c_ast.StructRef):
            return self.field_place(node)
        if isinstance(node, c_ast.ArrayRef):
            return self.element_place(node)
        if isinstance(node, c_ast.UnaryOp) and node.op == "*":
            return self.pointee_place(node, node.expr)
        self.refuse(node, f"'{shown(node)}' as a place", "it is none that is followed", "name a variable or a field")

    # Variables

    def variable_place(self, node):
        found = self.program.resolved.get(id(node))
        if not isinstance(found, Variable):
            what = "a function" if node.name in self.program.functions else "not declared"
            self.refuse(node, f"'{node.name}'", f"it is {what}", "declare a variable of that name")
        return self.place_of_variable(found, node)

    def place_of_variable(self, variable, node):
        kind = variable.kind
        self.check_kind(variable.kind, variable.name, node)
        if variable.extern and variable not in self.program.globals:
            return Direct("", self.outside(variable, node), stored=False)
        text = f"globals->{variable.text}" if variable.is_global else variable.text
        if isinstance(kind, StructValue):
            return Whole(text, kind.tag)
        if isinstance(kind, Array):
            return self.array_place(text, kind, node)
        if variable.addressed:
            representation = self.program.representation(kind)
            return self.direct(f"{text}->{representation.field}", kind)
        made = self.direct(text, kind)
        made.variable = None if variable.is_global else variable
        return made

    def outside(self, variable, node):
        """A variable of another file holds any number."""
        if isinstance(variable.kind, (Pointer, PlacePointer)):
            self.refuse(node, f"'{variable.name}'", "it is a pointer of another file", "define it in this file")
        self.note(node, f"'{variable.name}' belongs to another file: each read gives any number")
        return Opaque(str(variable.kind))

    def check_kind(self, kind, name, node):
        """Refuses what has no values; what is BROKEN has been listed where it is declared."""
        if kind == BROKEN or isinstance(kind, Array) and kind.element == BROKEN:
            self.refuse_silently()
        if kind == VOID_POINTER:
            self.refuse(
                node, f"'{name}' of type 'void *'", "what it points to has no type", "use a pointer to a struct"
            )
        if kind == STREAM:
            self.refuse(
                node, f"'{name}' of type 'FILE *'", "streams are not followed", "write to stdout or stderr alone"
            )
        if isinstance(kind, (StructValue, Pointer)):
            self.known_struct(kind.tag, node)
        if isinstance(kind, PlacePointer) and self.program.representation(kind) == BROKEN:
            self.refuse_silently()

    def refuse_silently(self):
        raise Stop()

    def known_struct(self, tag, node):
        structure = self.program.structures.get(tag)
        if structure is None or not structure.complete:
            self.refuse(node, f"struct {tag}", "its fields are not known here", "define it in this file or in a header")
        return structure

    def direct(self, text, kind):
        return Direct(text, kind, tuple(name for name, _ in parts(self.program, text, kind)[1:]))

    # Fields

    def field_place(self, node):
        base, arrow, names = path_of(node)
        whole = self.block_of(base, node) if arrow else self.lvalue(base)
        if not isinstance(whole, Whole):
            self.refuse_silently()
        return self.leaf_place(whole, (*whole.path, *names), node)

    def leaf_place(self, whole, path, node):
        self.known_struct(whole.tag, node)
        found = leaf(self.program, whole.tag, path)
        if found is None:
            if any(it.path[: len(path)] == path for it in leaves(self.program, whole.tag)):
                return Whole(whole.text, whole.tag, path)
            self.refuse(
                node, f"field '{'.'.join(path)}'", f"struct {whole.tag} has none of that name", "name one of its fields"
            )
        if found.slots or isinstance(found.kind, Array):
            return self.array_place(f"{whole.text}->{found.text}", found.kind, node)
        self.check_kind(found.kind, found.text, node)
        return self.direct(f"{whole.text}->{found.text}", found.kind)

    def block_of(self, base, node):
        """The block that a pointer to a struct points to, by a text that can stand before `->`."""
        value = self.value(base)
        if isinstance(value.kind, StructValue) or not isinstance(value.kind, Pointer):
            self.refuse(
                node, f"'{shown(node)}'", "its left side is no pointer to a struct", "use a pointer to a struct"
            )
        self.known_struct(value.kind.tag, node)
        if not value.is_path:
            value = self.spill(value)
        if value.constant is not None:
            made = self.temporary(value.kind, value)
            value = Value(made.text, value.kind)
        self.access(value.text, shown(base), base, value.kind.tag)
        return Whole(value.text, value.kind.tag)

    # What pointers point to, and elements of arrays

    def pointee_place(self, node, pointer):
        kind = self.kinds.of(pointer)
        if isinstance(kind, Pointer):
            return self.block_of(pointer, node)
        if isinstance(kind, PlacePointer):
            return self.target_place(pointer)
        if kind == TEXT:
            return self.character(pointer, node)
        if kind == BROKEN:
            self.value(pointer)
            self.refuse_silently()
        self.refuse(
            node,
            f"'{shown(node)}'",
            f"a value of type '{kind}' is not followed as a pointer",
            "use a pointer to a struct",
        )

    def target_place(self, pointer):
        value = self.value(pointer)
        if not value.is_path:
            value = self.spill(value)
        if value.constant is not None:
            made = self.temporary(value.kind, value)
            value = Value(made.text, value.kind, more=made.more)
        representation = self.program.representation(value.kind)
        target, tags = value.kind.target, representation.tags
        if len(tags) == 1:
            self.access(value.text, shown(pointer), pointer, representation.tag)
        if not representation.chooses:
            return self.direct(f"{value.text}->{representation.field}", target)
        pointers = dict(zip(tags, [value.text, *value.more]))
        return Chosen([f"{pointers[tag]}->{field}" for tag, field in representation.targets], value.more[-1], target)

    def character(self, pointer, node):
        """The first character of a text, which is there unless the text is null."""
        value = self.value(pointer)
        self.assert_text(value, pointer)
        return Element(Opaque("char"))

    def assert_text(self, value, node):
        if value.constant != 1:
            with self.at(node):
                self.emit(f"assert({value.text} != 0);", meaning="null", subject=shown(node))

    def element_place(self, node):
        kind = self.kinds.of(node.name)
        if isinstance(kind, Array):
            array = self.lvalue(node.name)
            return self.array_element(array, kind, node)
        if constant(self.program, node.subscript) == 0:
            return self.pointee_place(node, node.name)
        if kind == BROKEN:
            self.refuse_silently()
        self.refuse(
            node,
            f"'{shown(node)}'",
            "a pointer to the middle of an array is not followed",
            "use a list, or a field for each element",
        )

    def array_place(self, text, kind, node):
        """An array as a whole, which only its elements are used of."""
        if kind.length is None or kind.length <= 0:
            self.refuse(
                node, f"array '{shown(node)}'", "its number of elements is not known", "give it a constant number"
            )
        if isinstance(kind.element, Pointer) and kind.length <= LONGEST_ARRAY:
            return Slots([slot(text, i) for i in range(kind.length)], None, kind.element)
        if is_scalar_array(kind):
            return Element(kind.element, text if "->" in text else "")
        self.refuse(
            node,
            f"array of type '{kind}'",
            "its elements are not followed",
            "use a list, or a struct with a field for each element",
        )

    def array_element(self, array, kind, node):
        index = self.index(node.subscript, kind.length, node)
        if isinstance(array, Slots):
            return Slots(array.texts, index, array.kind)
        if array.touch:
            self.emit(f"{array.touch} = 0;", simple=True)
        self.note(node, f"the elements of '{shown(node.name)}' are not followed: each read gives any number")
        return Element(kind.element)

    def index(self, node, length, whole):
        """The number of an element, after an assertion that there is one."""
        value = self.value(node)
        if value.constant is None and not isinstance(value.kind, Opaque):
            value = self.spill(value)
        elif isinstance(value.kind, Opaque) and value.constant is None:
            value = self.spill(self.converted(value, self.kinds.of_Constant(c_ast.Constant("int", "0")), node))
        if value.constant is not None and 0 <= value.constant < length:
            return value
        with self.at(whole):
            self.emit(f"assert({value.text} >= 0 && {value.text} < {length});", meaning="bounds", subject=shown(whole))
        return value

    # Reading and writing

    def read(self, place, node):
        """The value that a place holds."""
        if isinstance(place, Direct):
            self.reads.append(shown(node))
            return self.read_direct(place, node)
        if isinstance(place, Chosen):
            made = self.temporary(place.kind)
            self.cases(place.choice, place.texts, lambda text: f"{made.text} = {text};")
            return self.read_direct(Direct(made.text, place.kind, made.more), node)
        if isinstance(place, Slots) and place.index is not None:
            return self.read_slot(place)
        if isinstance(place, Element) and not place.touch:
            return arbitrary(place.kind if isinstance(place.kind, Opaque) else Opaque(str(place.kind)))
        if isinstance(place, Whole):
            self.refuse(
                node,
                f"'{shown(node)}' as a value",
                "a struct is only copied by an assignment",
                "hand over a pointer to it",
            )
        self.refuse(
            node, f"array '{shown(node)}' as a value", "a pointer into an array is not followed", "use its elements"
        )

    def read_direct(self, place, node):
        if not place.stored:
            return arbitrary(place.kind)
        if isinstance(place.kind, Opaque):
            if place.variable:
                self.note(
                    place.variable.place,
                    f"'{place.variable.name}' is of type '{place.kind}': each read gives any number",
                )
            return arbitrary(place.kind, (place.text,))
        is_truth = str(place.kind) == "_Bool"
        return Value(place.text, place.kind, more=place.more, is_path=True, is_truth=is_truth)

    def read_slot(self, place):
        if place.index.constant is not None:
            return Value(place.texts[place.index.constant], place.kind, is_path=True)
        made = self.temporary(place.kind)
        self.pick(place, lambda text: f"{made.text} = {text};")
        return Value(made.text, place.kind, stable=True, is_path=True)

    def pick(self, place, statement):
        self.cases(place.index.text, place.texts, statement)

    def cases(self, number_text, texts, statement):
        made = ""
        for i, it in enumerate(texts[:-1]):
            made += f"if ({number_text} == {i}) {{ {statement(it)} }} else "
        self.emit(made + f"{{ {statement(texts[-1])} }}")

    def write(self, place, value, node):
        """Stores a value of the place's kind."""
        if isinstance(place, Direct):
            self.write_direct(place, value)
        elif isinstance(place, Chosen):
            text = self.stored_text(value, place.kind)
            self.cases(place.choice, place.texts, lambda it: f"{it} = {text};")
        elif isinstance(place, Slots) and place.index is not None:
            if place.index.constant is not None:
                self.emit(f"{place.texts[place.index.constant]} = {value.text};", simple=True)
            else:
                self.pick(place, lambda it: f"{it} = {value.text};")
        elif isinstance(place, Element) and not place.touch:
            for it in touches_of(value):
                self.touch(it)
        else:
            self.refuse(
                node, f"assignment to '{shown(node)}'", "an array is no place of one value", "assign its elements"
            )

    def write_direct(self, place, value):
        if not place.stored:
            for it in touches_of(value):
                self.touch(it)
            return
        self.emit(f"{place.text} = {self.stored_text(value, place.kind)};", simple=True)
        for name, text in zip(place.more, self.rest_of(value, place.kind)):
            self.emit(f"{name} = {text};", simple=True)

    # Blocks of memory for variables

    def make_block(self, variable, text, first=None):
        """Makes the block that a variable is, and sets the fields that only fill it up."""
        tag, own = self.block_tag(variable)
        with self.at(variable.place):
            declaration = f"struct {tag} *" if first is None else ""
            self.emit(f"{declaration}{text} = /* variable */ malloc(sizeof(struct {tag}));")
            self.emit(f"assume({text} != NULL);")
            if own is not None:
                for it in leaves(self.program, tag):
                    if it.text != own:
                        self.zero_leaf(text, it)

    def block_tag(self, variable):
        """The struct of a variable's block; the field that holds it, where it is no struct itself."""
        if isinstance(variable.kind, StructValue):
            return variable.kind.tag, None
        representation = self.program.representation(variable.kind)
        return representation.tag, representation.field

    def zero_leaf(self, base, it):
        if it.slots:
            for i in range(it.slots):
                self.emit(f"{base}->{slot(it.text, i)} = NULL;", simple=True)
        elif isinstance(it.kind, Array):
            self.emit(f"{base}->{it.text} = 0;", simple=True)
        elif it.kind != BROKEN:
            self.write_direct(self.direct(f"{base}->{it.text}", it.kind), self.zero(it.kind))

    def zero(self, kind):
        """The value that memory of zeros has."""
        if isinstance(kind, Pointer):
            return null(kind)
        if isinstance(kind, PlacePointer):
            return null(kind, self.program.representation(kind).rest_of_null())
        if isinstance(kind, Opaque):
            return Value("0", kind, constant=0, stable=True)
        return number(0, kind)

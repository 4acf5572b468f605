"""Calls: of the program's functions, of memcad's commands, of the standard library, of unknown functions."""

from pycparser import c_ast

from . import constants
from .collect import constant
from .expressions import Expressions
from .library import FILLING, PRINTING, READING_TEXTS, Library
from .kinds import (
    Array,
    BOOL,
    BROKEN,
    INT,
    TEXT,
    VOID,
    Opaque,
    PlacePointer,
    Pointer,
    StructValue,
    is_address,
    is_number,
)
from .memory import shown
from .order import both_call, clash
from .structs import leaves
from .values import Value, arbitrary, number, touches_of

STOPPING = {"exit", "abort", "_Exit", "_exit", "quick_exit"}
NUMBERS = {"rand", "srand", "abs", "labs", "getchar", "time", "clock", "sqrt", "fabs", "floor", "ceil", "pow", "sleep"}
NUMBERS |= {"isdigit", "isalpha", "isalnum", "isspace", "isupper", "islower", "ispunct", "toupper", "tolower"}
COMMANDS = {"assert", "assume", "assume_shape", "assert_shape", "assert_empty"}
NO_MEMORY = {
    "realloc": "allocate a new struct, and copy the fields",
    "strdup": "keep a number, or a string literal",
    "memcpy": "copy the fields that are needed",
    "memmove": "copy the fields that are needed",
    "strcpy": "keep a number, or a string literal",
}


class Calls(Library, Expressions):
    """Lowers calls."""

    def call(self, node, want, used):
        """A call; its value where that is used."""
        text = self.whole_call(node, want)
        if text == "input()" and used:
            return Value(text, INT)
        if text is not None:
            return self.call_result(node, text, want, used)
        name = self.callee(node)
        if name in self.program.allocators:
            return self.wrapped_allocation(node, want, self.program.allocators[name])
        if name in COMMANDS:
            return self.command(node, name)
        if name in STOPPING:
            return self.stop(node)
        if name == "free":
            return self.free(node)
        if name == "memset" and not isinstance(self.kinds.of(node.args.exprs[0]), Array):
            return self.clear(node)
        if name == "calloc":
            return self.calloc(node, want)
        if name in PRINTING or name in READING_TEXTS:
            return self.library(node)
        if name in FILLING:
            return self.fill_array(node, name)
        if name == "scanf":
            return self.scan(node)
        return self.unknown(node, name)

    def callee(self, node):
        if not isinstance(node.name, c_ast.ID) or id(node.name) in self.program.resolved:
            self.refuse(
                node,
                f"call through '{shown(node.name)}'",
                "a pointer to a function may go anywhere",
                "call the function by its name",
            )
        return node.name.name

    def call_result(self, node, text, want, used):
        is_allocation = text.startswith("malloc(")
        kind = self.allocated_kind(node, want) if is_allocation else self.kinds.of(node)
        if not is_allocation and (kind == VOID or not used):
            if text == "input()":
                self.touch(text)
            else:
                self.emit(f"{text};", simple=True)
            return number(0)
        self.result_kind(kind, node)
        made = self.temporary(kind)
        self.emit(f"{made.text} = {text};", simple=True)
        if isinstance(kind, Opaque):
            return arbitrary(kind, (made.text,))
        return Value(made.text, kind, stable=True, is_path=True, is_truth=kind == BOOL)

    def result_kind(self, kind, node):
        """Refuses results that are no single value."""
        self.check_kind(kind, shown(node), node)
        if isinstance(kind, StructValue):
            self.refuse(
                node,
                f"'{shown(node)}'",
                "its result is a whole struct",
                "hand over a pointer to the struct that it fills",
            )
        if isinstance(kind, PlacePointer) and self.program.representation(kind).chooses:
            self.refuse(
                node,
                f"'{shown(node)}'",
                f"its result, of type '{kind}', may be one of several fields",
                "return the struct that the field is in",
            )

    def right_side(self, node, want):
        """The text of a call that can be a whole right side, else None; arguments are written before."""
        if isinstance(node, c_ast.Cast) and isinstance(node.expr, c_ast.FuncCall):
            kind = self.kinds.of(node)
            is_allocation = getattr(node.expr.name, "name", "") == "malloc"
            return self.right_side(node.expr, kind) if is_allocation and (want is None or want == kind) else None
        if not isinstance(node, c_ast.FuncCall):
            return None
        name = self.callee(node)
        if name in self.program.functions and self.program.functions[name].result != want:
            return None
        return self.whole_call(node, want)

    def whole_call(self, node, want):
        """The text of a call of the program's functions, of `malloc` or of `input`, else None."""
        name = self.callee(node)
        if name in self.program.allocators:
            return None
        function = self.program.functions.get(name)
        if function is not None:
            return self.call_text(node, function)
        if name == "malloc":
            return self.allocation(node, self.allocated_kind(node, want), node.args.exprs[0])
        return "input()" if name == "input" else None

    # The program's functions

    def call_text(self, node, function):
        arguments = list(node.args.exprs) if node.args else []
        if len(arguments) != len(function.parameters):
            self.refuse(
                node,
                f"call of '{function.name}'",
                f"it has {len(function.parameters)} parameters",
                "give it as many arguments",
            )
        self.check_arguments(node, arguments)
        texts = self.handed_on(function)
        for value, parameter in zip(self.arguments(arguments, function), function.parameters):
            texts += self.argument_texts(value, parameter.kind)
        return f"{function.text}({', '.join(texts)})"

    def check_arguments(self, node, arguments):
        for i, one in enumerate(arguments):
            for other in arguments[i + 1 :]:
                if clash(self.program, one, other):
                    self.refuse(
                        node,
                        f"'{shown(node)}'",
                        "one argument changes what another one reads, in an order that C leaves open",
                        "write two statements",
                    )
                if both_call(self.program, one, other):
                    self.note(node, "C leaves open which argument is evaluated first; the left one is, here")

    def arguments(self, nodes, function):
        """The values of arguments, each kept where a later one writes statements."""
        made = []
        for node, parameter in zip(nodes, function.parameters):
            self.check_kind(parameter.kind, parameter.name, parameter.place)
            with self.captured() as after:
                value = self.value(node, parameter.kind)
            if after:
                made = [it if self.unchanged(it, before, node) else self.spill(it) for it, before in zip(made, nodes)]
            self.flush(after)
            made.append(value)
        return made

    def argument_texts(self, value, kind):
        return [self.stored_text(value, kind), *self.rest_of(value, kind)]

    def handed_on(self, function):
        """What a function gets beside its arguments: the globals, and variables that it must not free."""
        texts = ["globals"] if function.uses_globals else []
        alive = [it for scope in self.scopes for it in scope.blocks]
        for it in function.kept:
            if it in alive:
                texts.append(it.text)
            elif it in self.function.kept:
                texts.append(self.kept_name(it))
            else:
                texts.append("NULL")
        return texts

    def kept_name(self, variable):
        return f"memcad_kept_{self.function.kept.index(variable)}"

    # Memory

    def allocated_kind(self, node, want):
        """What a `malloc` makes: as its place says, else as its `sizeof` says."""
        if isinstance(want, Pointer):
            return want
        size = self.sized(node.args.exprs[-1]) if node.args else None
        if isinstance(size, StructValue):
            return Pointer(size.tag)
        if want is not None and want != TEXT and not isinstance(want, PlacePointer):
            self.refuse(node, f"'{shown(node)}'", "its place is no pointer to a struct", "allocate structs alone")
        self.refuse(
            node,
            f"'{shown(node)}'",
            "only single structs are allocated",
            "write malloc(sizeof *p), with a struct that p points to",
        )

    def sized(self, node):
        """The kind that a size is the size of, else None."""
        if isinstance(node, c_ast.UnaryOp) and node.op == "sizeof":
            inner = node.expr
            return self.program.resolved.get(id(inner)) if isinstance(inner, c_ast.Typename) else self.kinds.of(inner)
        if isinstance(node, c_ast.BinaryOp) and node.op == "*":
            for one, other in ((node.left, node.right), (node.right, node.left)):
                if constant(self.program, one) == 1:
                    return self.sized(other)
        if isinstance(node, c_ast.Cast):
            return self.sized(node.expr)
        return None

    def allocation(self, node, kind, size):
        of = self.sized(size)
        if of != StructValue(kind.tag):
            self.refuse(
                node,
                f"'{shown(node)}'",
                f"its size is not that of one struct {kind.tag}",
                "write malloc(sizeof *p), with p of the type that it is for",
            )
        self.known_struct(kind.tag, node)
        return f"malloc(sizeof(struct {kind.tag}))"

    def wrapped_allocation(self, node, want, stops):
        """A call of a function that only wraps `malloc`."""
        kind = self.allocated_kind(node, want)
        made = self.temporary(kind, Value(self.allocation(node, kind, node.args.exprs[0]), kind))
        if stops:
            self.emit(f"assume({made.text} != NULL);")
        return Value(made.text, kind, stable=True, is_path=True)

    def calloc(self, node, want):
        arguments = node.args.exprs if node.args else []
        sizes = [it for it in arguments if constant(self.program, it) != 1]
        if len(arguments) != 2 or len(sizes) != 1:
            self.refuse(node, f"'{shown(node)}'", "only single structs are allocated", "write calloc(1, sizeof *p)")
        kind = want if isinstance(want, Pointer) else None
        of = self.sized(sizes[0])
        kind = kind or (Pointer(of.tag) if isinstance(of, StructValue) else self.allocated_kind(node, want))
        made = self.temporary(kind, Value(self.allocation(node, kind, sizes[0]) + " /* zeroed */", kind))
        self.emit(f"if ({made.text} != NULL) {{")
        for it in leaves(self.program, kind.tag):
            self.zero_leaf(made.text, it)
        self.emit("}")
        return Value(made.text, kind, stable=True, is_path=True)

    def clear(self, node):
        """`memset(p, 0, sizeof *p)`."""
        arguments = node.args.exprs if node.args else []
        kind = self.kinds.of(arguments[0]) if arguments else BROKEN
        fits = len(arguments) == 3 and isinstance(kind, Pointer) and self.sized(arguments[2]) == StructValue(kind.tag)
        if not fits or constant(self.program, arguments[1]) != 0:
            self.refuse(
                node,
                f"'{shown(node)}'",
                "memory is only set to 0 for one whole struct",
                "write memset(p, 0, sizeof *p)",
            )
        block = self.block_of(arguments[0], node)
        for it in leaves(self.program, kind.tag):
            self.zero_leaf(block.text, it)
        return Value(block.text, kind, is_path=True)

    def free(self, node):
        argument = node.args.exprs[0]
        value = self.value(argument)
        if value.constant == 0:
            return number(0)
        if not isinstance(value.kind, Pointer):
            self.refuse(
                node,
                f"'{shown(node)}'",
                f"a value of type '{value.kind}' is not followed as a block of memory",
                "allocate and free structs",
            )
        guarded = self.guarded(value.kind.tag)
        if guarded:
            value = self.spill(value) if not value.is_path else value
            for text, may_be_missing in guarded:
                test = (f"{text} == NULL || " if may_be_missing else "") + f"{value.text} != {text}"
                self.emit(f"assert({test});", meaning="badfree", subject=shown(argument))
        self.access(value.text, shown(argument), argument, value.kind.tag)
        self.emit(f"free({value.text});", simple=True, meaning="free", subject=shown(argument))
        return number(0)

    def guarded(self, tag):
        """Variables that are structs of this tag, which a `free` must not reach."""
        alive = [it for scope in self.scopes for it in scope.blocks]
        found = [(it.text, False) for it in alive if it.kind == StructValue(tag) and it.addressed]
        found += [(self.kept_name(it), True) for it in self.function.kept if it.kind == StructValue(tag)]
        if self.function.uses_globals:
            found += [
                (f"globals->{it.text}", False)
                for it in self.program.globals
                if it.kind == StructValue(tag) and it.addressed
            ]
        return found

    # Commands

    def command(self, node, name):
        arguments = node.args.exprs if node.args else []
        if name in ("assert", "assume"):
            if len(arguments) != 1:
                self.refuse(node, name, "it has one argument", "give it a condition")
            test = self.condition(arguments[0])
            self.emit(f"{name}({test});", meaning="assertion" if name == "assert" else "", subject=shown(arguments[0]))
        elif name == "assert_empty":
            self.assert_empty(node)
        else:
            self.shape(node, name, arguments)
        return number(0)

    def shape(self, node, name, arguments):
        if len(arguments) < 2 or not isinstance(arguments[0], c_ast.ID):
            self.refuse(node, name, "it names a predicate and a pointer", f"write {name}(list, p)")
        values = [self.shape_argument(it) for it in arguments[2:]]
        predicate = arguments[0].name
        if name == "assert_shape":
            first = self.shape_argument(arguments[1])
            self.emit(
                f"assert_shape({', '.join([predicate, first, *values])});", meaning="shape", subject=shown(arguments[1])
            )
            return
        kind = self.kinds.of(arguments[1])
        if not isinstance(kind, Pointer):
            self.refuse(node, name, "its second argument is no pointer to a struct", "give it a variable that is one")
        place = self.lvalue(arguments[1])
        if getattr(place, "variable", None) is not None:
            self.emit(f"assume_shape({', '.join([predicate, place.text, *values])});")
            return
        made = self.temporary(kind)
        self.emit(f"assume_shape({', '.join([predicate, made.text, *values])});")
        self.write(place, Value(made.text, kind), arguments[1])

    def shape_argument(self, node):
        """A name, NULL or a number, which is all that a shape command may name."""
        value = self.value(node)
        if isinstance(value.kind, Opaque):
            return self.spill(self.converted(value, INT, node)).text
        if value.constant is not None:
            return "NULL" if self.kinds.is_null(node) and value.text == "NULL" else str(value.constant)
        return value.text if value.text.isidentifier() else self.spill(value).text

    def assert_empty(self, node):
        blocks = [it for scope in self.scopes for it in scope.blocks]
        if self.callers_have_blocks():
            self.refuse(node, "assert_empty", "a caller has variables that are blocks of memory", "assert it in main")
        shared = self.is_entry and self.has_globals
        if not blocks and not shared and not self.function.uses_globals:
            self.emit("assert_empty();", meaning="notempty")
            return
        if self.is_last():
            self.free_for_good(shared)
            value = constant(self.program, self.rest[0].expr) if self.rest and self.rest[0].expr else 0
            self.emit(f"return {constants.spelled(value)};", ends=True)
            return
        # The variables that are blocks are freed on a branch of their own, which ends here.
        self.emit("if (input() /* = 0 */) {")
        self.free_for_good(shared)
        self.emit("assume(0); }")

    def is_last(self):
        """Whether only the end of the program follows."""
        is_end = (
            not self.rest or isinstance(self.rest[0], c_ast.Return) and self.is_number_or_nothing(self.rest[0].expr)
        )
        return self.is_entry and is_end and len(self.scopes) <= 2

    def is_number_or_nothing(self, node):
        return node is None or constant(self.program, node) is not None

    def free_for_good(self, shared):
        self.free_blocks(self.scopes)
        if shared or self.function.uses_globals:
            self.free_globals()
        self.emit("assert_empty();", meaning="notempty")

    def callers_have_blocks(self):
        for caller in self.program.functions.values():
            if caller is not self.function and self.function in caller.below:
                if any(it.is_block and not it.is_global for it in caller.locals):
                    return True
        return False

    def free_globals(self):
        for it in self.program.globals:
            if it.is_block and it.text:
                self.emit(f"free(globals->{it.text}) /* variable */;")
        self.emit("free(globals) /* variable */;")

    def stop(self, node):
        for it in node.args.exprs if node.args else []:
            self.discard(it)
        self.emit("assume(0);", ends=True)
        return number(0)

    # Other functions

    def unknown(self, node, name):
        if name in NO_MEMORY:
            self.refuse(node, f"'{name}'", "what it does to memory has no translation", NO_MEMORY[name])
        arguments = list(node.args.exprs) if node.args else []
        kind = self.kinds.of(node)
        values = [self.value(it) for it in arguments]
        if not is_number(kind) and kind != VOID or any(is_address(it.kind) and it.constant != 0 for it in values):
            self.refuse(
                node,
                f"unknown function '{name}'",
                "it is handed pointers or gives one, and its body is not here",
                "define it in this file",
            )
        for value in values:
            for text in touches_of(value):
                self.touch(text)
        if name in NUMBERS:
            return arbitrary(kind if kind != VOID else INT)
        self.note(
            node,
            f"'{name}' is not defined here: its result is any number, and it is taken to change nothing of this file",
        )
        return arbitrary(kind if kind != VOID else INT)

"""Functions of the standard library on texts, streams and arrays of characters."""

from pycparser import c_ast

from .collect import constant
from .kinds import BROKEN, INT, STREAM, TEXT, Array, is_number
from .memory import shown
from .structs import is_scalar_array
from .values import Element, Value, arbitrary, number, touches_of

PRINTING = {"printf", "fprintf", "puts", "fputs", "putchar", "fputc", "putc", "perror", "fflush", "fgetc", "getc"}
READING_TEXTS = {"strlen", "strcmp", "strncmp", "strcasecmp", "atoi", "atol", "atof", "getenv"}

# Where the number of characters stands that a function writes at most.
FILLING = {"strncpy": 2, "snprintf": 1, "fgets": 1, "memset": 2}


class Library:
    """Lowers calls of the standard library."""

    def library(self, node):
        """Functions that only read texts and numbers: their arguments are evaluated."""
        arguments = list(node.args.exprs) if node.args else []
        self.check_arguments(node, arguments)
        for it in arguments:
            self.read_argument(it)
        kind = self.kinds.of(node)
        if kind == TEXT:
            self.refuse(node, f"'{shown(node)}'", "its text is not followed", "use a string literal")
        return arbitrary(INT if kind in (INT, BROKEN) else kind)

    def read_argument(self, node):
        kind = self.kinds.of(node)
        if kind == STREAM:
            return
        if is_scalar_array(kind):
            self.note(node, f"that the text in '{shown(node)}' ends is not shown")
            self.touch_array(node)
            return
        value = self.value(node)
        if value.kind == TEXT:
            self.assert_text(value, node)
        elif is_number(value.kind):
            for text in touches_of(value):
                self.touch(text)
        elif value.constant is None:
            self.touch(value.text, value.kind)

    def touch_array(self, node):
        """An array of numbers is used: the block that it is in is there."""
        place = self.lvalue(node)
        if isinstance(place, Element) and place.touch:
            self.emit(f"{place.touch} = 0;", simple=True)

    def fill_array(self, node, name):
        """A function that writes at most a number of characters into an array."""
        arguments = list(node.args.exprs) if node.args else []
        kind = self.kinds.of(arguments[0]) if arguments else BROKEN
        at = FILLING[name]
        if len(arguments) <= at or not is_scalar_array(kind) or not self.fits(arguments[at], arguments[0], kind):
            self.refuse(
                node,
                f"'{shown(node)}'",
                "that it writes within an array is not known",
                f"write into an array of characters, at most its sizeof: {name}(a, .., sizeof a ..)",
            )
        self.touch_array(arguments[0])
        for i, it in enumerate(arguments):
            if i not in (0, at):
                self.read_argument(it)
        if name != "fgets":
            return arbitrary(INT) if name == "snprintf" else number(1, TEXT)
        made = self.temporary(TEXT, number(0, TEXT))
        self.emit(f"if (input() != 0) {made.text} = 1;")
        return Value(made.text, TEXT, stable=True, is_path=True)

    def fits(self, size, array, kind):
        """Whether a number of bytes is at most the size of an array: its sizeof, or less by a constant."""
        if isinstance(size, c_ast.BinaryOp) and size.op == "-" and (constant(self.program, size.right) or 0) > 0:
            return self.fits(size.left, array, kind)
        known = constant(self.program, size)
        if known is not None:
            return 0 <= known <= kind.length
        is_sizeof = isinstance(size, c_ast.UnaryOp) and size.op == "sizeof"
        return is_sizeof and isinstance(self.sized(size), Array) and shown(size.expr) == shown(array)

    def scan(self, node):
        """`scanf` of numbers: each of them may be set to any number."""
        arguments = list(node.args.exprs) if node.args else []
        for it in arguments[1:]:
            target = it.expr if isinstance(it, c_ast.UnaryOp) and it.op == "&" else None
            if target is None or not is_number(self.kinds.of(target)):
                self.refuse(
                    it,
                    f"'{shown(it)}' for scanf",
                    "it is no address of a number",
                    'read numbers alone, as scanf("%d", &n)',
                )
            self.emit("if (input() != 0) {")
            self.write(self.lvalue(target), self.converted(arbitrary(INT), self.kinds.of(target), target), target)
            self.emit("}")
        return arbitrary(INT)

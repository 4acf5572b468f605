"""The kind of an expression, as the language gives it."""

from pycparser import c_ast

from . import constants
from .collect import constant, enumerator
from .kinds import (
    BOOL,
    BROKEN,
    INT,
    TEXT,
    VOID_POINTER,
    Array,
    Enumeration,
    Opaque,
    PlacePointer,
    Pointer,
    StructValue,
    is_exact_number,
    is_number,
)
from .model import Variable

TESTS = {"==", "!=", "<", "<=", ">", ">=", "&&", "||"}
OPAQUE_INT = Opaque("a number that is not followed")


def promoted(left, right):
    """The kind of a sum of two numbers."""
    if isinstance(left, Enumeration) or isinstance(right, Enumeration):
        return Opaque("unsigned int")
    if is_exact_number(left) and is_exact_number(right):
        return INT
    if is_number(left) and is_number(right):
        return left if isinstance(left, Opaque) else right
    return BROKEN


class ExpressionKinds:
    """Answers the kind of each expression of a program."""

    def __init__(self, program):
        self.program = program

    def of(self, node):
        """The kind; BROKEN where it has no translation (which is listed where it is lowered)."""
        handler = getattr(self, "of_" + type(node).__name__, None)
        return handler(node) if handler else BROKEN

    def of_Constant(self, node):
        if node.type == "string" or node.type.endswith("string"):
            return TEXT
        _, is_int = constants.of_literal(node)
        return INT if is_int else Opaque(node.type)

    def of_ID(self, node):
        found = self.program.resolved.get(id(node))
        if isinstance(found, Variable):
            return found.kind
        return INT if isinstance(found, int) else BROKEN

    def of_StructRef(self, node):
        base = self.of(node.name)
        if not isinstance(base, (Pointer, StructValue)):
            return BROKEN
        structure = self.program.structures.get(base.tag)
        found = structure.find(node.field.name) if structure else None
        return found.kind if found else BROKEN

    def of_ArrayRef(self, node):
        return self.pointee(self.of(node.name))

    def pointee(self, kind):
        if isinstance(kind, Array):
            return kind.element
        if isinstance(kind, Pointer):
            return StructValue(kind.tag)
        if isinstance(kind, PlacePointer):
            return kind.target
        if kind == TEXT:
            return Opaque("char")
        return BROKEN

    def of_UnaryOp(self, node):
        if node.op == "sizeof":
            return Opaque("size_t")
        if node.op == "!":
            return INT
        inner = self.of(node.expr)
        if node.op == "*":
            return self.pointee(inner)
        if node.op == "&":
            return self.address_of(inner)
        if node.op in ("+", "-", "~"):
            return INT if inner in (INT, BOOL) else promoted(inner, INT)
        return inner

    def address_of(self, kind):
        if isinstance(kind, StructValue):
            return Pointer(kind.tag)
        if isinstance(kind, (Array, PlacePointer)) or kind in (BROKEN, VOID_POINTER):
            return BROKEN
        return PlacePointer(kind)

    def of_BinaryOp(self, node):
        if node.op in TESTS:
            return INT
        left, right = self.of(node.left), self.of(node.right)
        if node.op in ("<<", ">>"):
            return promoted(left, INT)
        return promoted(left, right)

    def of_Assignment(self, node):
        return self.of(node.lvalue)

    def of_TernaryOp(self, node):
        left, right = self.of(node.iftrue), self.of(node.iffalse)
        if left == right:
            return left
        if self.is_null(node.iftrue):
            return right
        if self.is_null(node.iffalse):
            return left
        return promoted(left, right)

    def of_ExprList(self, node):
        return self.of(node.exprs[-1])

    def of_Cast(self, node):
        return self.program.resolved.get(id(node), BROKEN)

    def of_FuncCall(self, node):
        if not isinstance(node.name, c_ast.ID):
            return BROKEN
        name = node.name.name
        if name == "input":
            return INT
        if name in self.program.functions:
            return self.program.functions[name].result
        return self.program.prototypes.get(name, INT)

    def is_null(self, node):
        """Whether the expression is a null pointer constant."""
        if isinstance(node, c_ast.Cast):
            kind = self.of(node)
            return (kind == VOID_POINTER or isinstance(kind, (Pointer, PlacePointer)) or kind == TEXT) and self.is_null(
                node.expr
            )
        return isinstance(node, (c_ast.Constant, c_ast.UnaryOp, c_ast.BinaryOp)) and constant(self.program, node) == 0

    def enumerator(self, node):
        return enumerator(self.program, node)

"""Which parts of an expression C leaves unordered, and whether that matters."""

from pycparser import c_ast

from .model import Variable

STEPS = {"++", "--", "p++", "p--"}


class Effects:
    """What an expression reads and writes: variables, and fields by their names."""

    def __init__(self, program, node):
        self.program = program
        self.reads, self.writes, self.calls = set(), set(), False
        if node is not None:
            self.visit(node)

    def target(self, node):
        if isinstance(node, c_ast.ID):
            found = self.program.resolved.get(id(node))
            return found if isinstance(found, Variable) else None
        if isinstance(node, c_ast.StructRef):
            return "field " + node.field.name
        return "memory"

    def visit(self, node):
        if isinstance(node, c_ast.Assignment):
            self.writes.add(self.target(node.lvalue))
        if isinstance(node, c_ast.UnaryOp) and node.op in STEPS:
            self.writes.add(self.target(node.expr))
        if isinstance(node, c_ast.FuncCall):
            self.calls = True
        if isinstance(node, (c_ast.ID, c_ast.StructRef)):
            self.reads.add(self.target(node))
        if isinstance(node, c_ast.UnaryOp) and node.op == "sizeof":
            return
        for _, it in node.children():
            self.visit(it)


def lvalue_parts(node):
    """What is read to find the place that an assignment writes."""
    if isinstance(node, c_ast.StructRef):
        return node.name
    if isinstance(node, c_ast.UnaryOp):
        return node.expr
    return node if isinstance(node, c_ast.ArrayRef) else None


def clash(program, left, right):
    """Whether one of two unordered expressions writes what the other one reads or writes."""
    one, other = Effects(program, left), Effects(program, right)
    return bool(one.writes & (other.reads | other.writes) or other.writes & one.reads)


def both_call(program, left, right):
    """Whether both call functions, whose order C leaves open."""
    return Effects(program, left).calls and Effects(program, right).calls


def written(program, node):
    """The variables that an expression assigns itself."""
    return {it for it in Effects(program, node).writes if isinstance(it, Variable)}

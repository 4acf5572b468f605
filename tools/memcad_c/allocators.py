"""Functions of the program that only wrap `malloc`, as `xmalloc`: they become what they do."""

from pycparser import c_ast

from .kinds import VOID_POINTER, is_number

STOPPING = {"exit", "abort", "_Exit", "_exit", "quick_exit"}
PRINTING = {"printf", "fprintf", "puts", "fputs", "perror", "fflush"}


def is_name(node, name):
    return isinstance(node, c_ast.ID) and node.name == name


def is_malloc(node, parameter):
    """Whether an expression is `malloc(n)` of the parameter."""
    if isinstance(node, c_ast.Cast):
        node = node.expr
    if not isinstance(node, c_ast.FuncCall) or not is_name(node.name, "malloc"):
        return False
    return len(node.args.exprs) == 1 and is_name(node.args.exprs[0], parameter)


def is_null(node):
    if isinstance(node, c_ast.Cast):
        node = node.expr
    return isinstance(node, c_ast.Constant) and node.value == "0"


def tests_null(node, name):
    """Whether a condition is `!p` or `p == NULL`."""
    if isinstance(node, c_ast.UnaryOp):
        return node.op == "!" and is_name(node.expr, name)
    if isinstance(node, c_ast.BinaryOp) and node.op == "==":
        return is_name(node.left, name) and is_null(node.right) or is_name(node.right, name) and is_null(node.left)
    return False


def only_stops(node):
    """Whether a statement prints at most, and ends the run."""
    calls = node.block_items or [] if isinstance(node, c_ast.Compound) else [node]
    names = [getattr(getattr(it, "name", None), "name", "") for it in calls if isinstance(it, c_ast.FuncCall)]
    if len(names) != len(calls) or not names:
        return False
    return names[-1] in STOPPING and all(it in PRINTING for it in names[:-1])


def stops_on_failure(function):
    """True or False for a wrapper of `malloc`: whether it ends the run where `malloc` fails; None for other functions."""
    if function.result != VOID_POINTER or len(function.parameters) != 1 or not is_number(function.parameters[0].kind):
        return None
    parameter, items = function.parameters[0].name, list(function.node.body.block_items or [])
    if len(items) == 1 and isinstance(items[0], c_ast.Return) and is_malloc(items[0].expr, parameter):
        return False
    if len(items) < 2 or not isinstance(items[0], c_ast.Decl) or not isinstance(items[-1], c_ast.Return):
        return None
    name, middle = items[0].name, items[1:-1]
    if items[0].init is None and middle and isinstance(middle[0], c_ast.Assignment) and is_name(middle[0].lvalue, name):
        made, middle = middle[0].rvalue, middle[1:]
    else:
        made = items[0].init
    if made is None or not is_malloc(made, parameter) or not is_name(items[-1].expr, name):
        return None
    if not middle:
        return False
    test = middle[0]
    fits = len(middle) == 1 and isinstance(test, c_ast.If) and test.iffalse is None
    return True if fits and tests_null(test.cond, name) and only_stops(test.iftrue) else None

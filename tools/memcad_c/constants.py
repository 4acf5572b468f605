"""Numbers that are known when the program is read."""

import re

from pycparser import c_ast

ESCAPES = {"n": 10, "t": 9, "r": 13, "0": 0, "a": 7, "b": 8, "f": 12, "v": 11, "\\": 92, "'": 39, '"': 34, "?": 63}
INT_MIN, INT_MAX = -(2**31), 2**31 - 1


def wrapped(number):
    """The number as 32 bits have it."""
    return (number - INT_MIN) % 2**32 + INT_MIN


def of_character(text):
    """The value of a character constant such as 'a' or '\\n', or None."""
    inner = text[text.index("'") + 1 : -1]
    if len(inner) == 1:
        return ord(inner)
    if re.fullmatch(r"\\x[0-9a-fA-F]+", inner):
        return int(inner[2:], 16)
    if re.fullmatch(r"\\[0-7]{1,3}", inner):
        return int(inner[1:], 8)
    return ESCAPES.get(inner[1:]) if inner.startswith("\\") else None


def of_literal(node):
    """The value of a whole number, and whether it is an int; None for other literals."""
    text = node.value
    if "char" in node.type:
        return of_character(text), True
    if not re.fullmatch(r"(0[xX][0-9a-fA-F]+|0[bB][01]+|\d+)[uUlL]*", text):
        return None, False
    digits = text.rstrip("uUlL")
    if re.fullmatch(r"0[0-7]+", digits):
        value = int(digits, 8)
    else:
        value = int(digits, 0)
    return value, digits == text and value <= INT_MAX


def spelled(number):
    """The number in the language of memcad."""
    if number == INT_MIN:
        return "(-2147483647 - 1)"
    return str(number) if number >= 0 else f"(-{-number})"


OPERATIONS = {
    "+": lambda a, b: a + b,
    "-": lambda a, b: a - b,
    "*": lambda a, b: a * b,
    "/": lambda a, b: int(a / b) if b else None,
    "%": lambda a, b: a - b * int(a / b) if b else None,
    "<<": lambda a, b: a << b if 0 <= b < 32 else None,
    ">>": lambda a, b: a >> b if 0 <= b < 32 else None,
    "&": lambda a, b: a & b,
    "|": lambda a, b: a | b,
    "^": lambda a, b: a ^ b,
    "==": lambda a, b: int(a == b),
    "!=": lambda a, b: int(a != b),
    "<": lambda a, b: int(a < b),
    "<=": lambda a, b: int(a <= b),
    ">": lambda a, b: int(a > b),
    ">=": lambda a, b: int(a >= b),
    "&&": lambda a, b: int(bool(a and b)),
    "||": lambda a, b: int(bool(a or b)),
}


def of_node(node, lookup):
    """The value of a constant expression of ints, else None; `lookup` gives an enumerator's value."""
    if isinstance(node, c_ast.Constant):
        value, is_int = of_literal(node)
        return value if is_int else None
    if isinstance(node, c_ast.ID):
        return lookup(node)
    if isinstance(node, c_ast.UnaryOp) and node.op in "+-~!":
        value = of_node(node.expr, lookup)
        if value is None:
            return None
        return wrapped({"+": value, "-": -value, "~": ~value, "!": int(not value)}[node.op])
    if isinstance(node, c_ast.BinaryOp) and node.op in OPERATIONS:
        left, right = of_node(node.left, lookup), of_node(node.right, lookup)
        if left is None or right is None:
            return None
        value = OPERATIONS[node.op](left, right)
        return None if value is None else wrapped(value)
    return None

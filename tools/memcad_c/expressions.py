"""Expressions: side effects are written as statements before the one they stand in, left to right."""

import re

from pycparser import c_ast

from . import constants
from .collect import constant
from .facts import path_of
from .kinds import (
    BOOL,
    BROKEN,
    INT,
    TEXT,
    VOID,
    VOID_POINTER,
    Array,
    Enumeration,
    Opaque,
    PlacePointer,
    Pointer,
    StructValue,
    is_address,
    is_number,
)
from .memory import Memory, shown
from .order import Effects, both_call, clash, lvalue_parts, written
from .structs import leaves
from .values import Chosen, Direct, Value, Whole, arbitrary, null, number, touches_of

COMPARISONS = {"==", "!=", "<", "<=", ">", ">="}
STEPS = {"p++": "+", "++": "+", "p--": "-", "--": "-"}


def negated(test):
    """The contrary of a condition."""
    simple = re.fullmatch(r"([\w>()-]+) (==|!=) (\w+)", test)
    if simple:
        return f"{simple[1]} {'!=' if simple[2] == '==' else '=='} {simple[3]}"
    return f"!({test})"


class Expressions(Memory):
    """Lowers expressions to values and conditions."""

    # Values

    def value(self, node, want=None):
        """The value of an expression; `want` is the kind that it is put to use as, where that is known."""
        known = self.known_number(node)
        if known is not None:
            return self.converted(known, want, node) if want else known
        handler = getattr(self, "value_" + type(node).__name__, None)
        if handler is None:
            self.refuse(node, f"'{shown(node)}'", "this expression has no translation", "write it as statements")
        made = handler(node, want) if type(node).__name__ in WANTING else handler(node)
        return self.converted(made, want, node) if want else made

    def known_number(self, node):
        if not isinstance(node, (c_ast.Constant, c_ast.UnaryOp, c_ast.BinaryOp, c_ast.ID)):
            return None
        found = constant(self.program, node)
        return None if found is None else number(found)

    def value_Constant(self, node):
        if "string" in node.type:
            return Value("1", TEXT, constant=1, stable=True)
        found, _ = constants.of_literal(node)
        kind = self.kinds.of(node)
        return Value("input()", kind, constant=found)

    def value_ID(self, node):
        return self.read(self.lvalue(node), node)

    def value_StructRef(self, node):
        return self.read(self.lvalue(node), node)

    def value_ArrayRef(self, node):
        return self.read(self.lvalue(node), node)

    def value_ExprList(self, node):
        for it in node.exprs[:-1]:
            self.discard(it)
        return self.value(node.exprs[-1])

    def value_Cast(self, node, want):
        kind = self.kinds.of(node)
        if kind == BROKEN:
            self.refuse_silently()
        if kind == VOID_POINTER and self.kinds.is_null(node):
            return null(want if want and is_address(want) and want != TEXT else VOID_POINTER)
        if kind == VOID:
            self.discard(node.expr)
            return number(0)
        return self.value(node.expr, kind if kind != VOID_POINTER else want)

    def value_Assignment(self, node):
        return self.assign(node, True)

    def value_FuncCall(self, node, want):
        return self.call(node, want, True)

    def value_CompoundLiteral(self, node):
        self.refuse(node, "compound literal", "it is a variable without a name", "declare a variable")

    def value_UnaryOp(self, node, want):
        if node.op in STEPS:
            return self.step(node, True)
        if node.op == "*":
            return self.read(self.lvalue(node), node)
        if node.op == "&":
            return self.address(node)
        if node.op == "sizeof":
            return arbitrary(Opaque("size_t"))
        if node.op == "!":
            return self.truth(node)
        return self.sign(node)

    def sign(self, node):
        inner = self.value(node.expr)
        kind = self.kinds.of(node)
        if not is_number(inner.kind) or kind == BROKEN:
            self.refuse(node, f"'{shown(node)}'", "it is no arithmetic on numbers", "use numbers")
        if isinstance(kind, Opaque):
            return arbitrary(kind, touches_of(inner))
        text = {"+": inner.text, "-": f"(-{inner.text})", "~": f"(-{inner.text} - 1)"}[node.op]
        return Value(text, INT)

    def value_BinaryOp(self, node):
        if node.op in COMPARISONS or node.op in ("&&", "||"):
            return self.truth(node)
        left, right = self.operands(node)
        if not is_number(left.kind) or not is_number(right.kind):
            self.refuse(
                node,
                f"'{shown(node)}'",
                "arithmetic on pointers is not followed",
                "use a list, or a field for each element",
            )
        return self.arithmetic(node, left, right)

    def operands(self, node):
        """Both sides, the left one first, and kept where the right one writes statements."""
        if clash(self.program, node.left, node.right):
            self.refuse(
                node,
                f"'{shown(node)}'",
                "one side changes what the other one reads, in an order that C leaves open",
                "write two statements",
            )
        if both_call(self.program, node.left, node.right):
            self.note(node, "C leaves open which side is evaluated first; the left one is, here")
        kinds = self.kinds.of(node.left), self.kinds.of(node.right)
        left = self.operand(node.left, kinds[1])
        with self.captured() as after:
            right = self.operand(node.right, kinds[0])
        if after and not self.unchanged(left, node.left, node.right):
            left = self.spill(left)
        self.flush(after)
        return left, right

    def operand(self, node, other):
        if self.kinds.is_null(node) and is_address(other):
            return self.null_of(other)
        return self.value(node)

    def unchanged(self, value, node, other):
        """Whether a value survives the statements of a later operand."""
        if value.stable:
            return True
        place = self.program.resolved.get(id(node)) if isinstance(node, c_ast.ID) else None
        is_local = (
            getattr(place, "text", "") == value.text and value.is_path and not isinstance(value.kind, PlacePointer)
        )
        return is_local and not place.is_global and place not in written(self.program, other)

    def arithmetic(self, node, left, right):
        kind = self.kinds.of(node)
        if node.op in ("/", "%"):
            return self.division(node.op, left, right, kind, node)
        if isinstance(kind, Opaque) or kind == BROKEN:
            return arbitrary(kind if kind != BROKEN else Opaque("int"), (*touches_of(left), *touches_of(right)))
        if node.op in "+-*":
            return Value(f"({left.text} {node.op} {right.text})", INT)
        return self.bits(node, left, right)

    def bits(self, node, left, right):
        if node.op == "<<" and right.constant is not None and 0 <= right.constant < 31:
            return Value(f"({left.text} * {2 ** right.constant})", INT)
        self.note(node, f"the result of '{node.op}' is not followed: it gives any number")
        left, right = self.spill(left), self.spill(right)
        made = self.temporary(INT)
        self.emit(f"{made.text} = input() /* = {left.text} {node.op} {right.text} */;", simple=True)
        masks = [it.constant for it in (left, right) if it.constant is not None and it.constant >= 0]
        if node.op == "&" and masks:
            self.emit(f"assume({made.text} >= 0 && {made.text} <= {min(masks)});")
        return Value(made.text, INT, stable=True, is_path=True)

    def division(self, operator, left, right, kind, node):
        """A quotient or a remainder: what is known of it is its range, and its sign."""
        if isinstance(kind, Opaque):
            return self.opaque_division(left, right, kind, node)
        left, right = self.spill(left), self.spill(right)
        if right.constant is None or right.constant == 0:
            self.emit(
                f"assert({right.text} != 0);",
                meaning="division",
                subject=shown(node.right) if hasattr(node, "right") else "",
            )
        if right.constant is None or right.constant == -1:
            self.emit(
                f"assert({left.text} != (-2147483647 - 1) || {right.text} != (-1));",
                meaning="overflow",
                subject=getattr(node, "op", operator),
            )
        made = self.temporary(INT)
        self.emit(f"{made.text} = input() /* = {left.text} {operator} {right.text} */;", simple=True)
        if right.constant is not None and right.constant > 0:
            self.bound_division(operator, made.text, left.text, right.constant)
        else:
            self.note(node, f"the result of '{operator}' is not followed: it gives any number")
        return Value(made.text, INT, stable=True, is_path=True)

    def opaque_division(self, left, right, kind, node):
        if kind.name not in ("float", "double", "long double") and not right.constant:
            self.note(node, "that the right side is not 0 is not shown: its value is not followed")
        return arbitrary(kind, (*touches_of(left), *touches_of(right)))

    def bound_division(self, operator, result, left, divisor):
        low, high = (-(2**31 // divisor), (2**31 - 1) // divisor) if operator == "/" else (1 - divisor, divisor - 1)
        self.emit(f"assume({result} >= {constants.spelled(low)} && {result} <= {high});")
        self.emit(f"if ({left} >= 0) assume({result} >= 0 && {result} <= {left}); else assume({result} <= 0);")

    def value_TernaryOp(self, node, want):
        kind = want or self.kinds.of(node)
        if kind == VOID:
            self.choose_effect(node)
            return number(0)
        if kind == BROKEN or isinstance(kind, (StructValue, Array)):
            self.value(node.iftrue)
            self.value(node.iffalse)
            self.refuse(node, f"'{shown(node)}'", "the types of its two sides do not fit", "write an 'if'")
        test = self.condition(node.cond)
        made = self.temporary(kind)
        self.emit(f"if ({test}) {{")
        self.write_direct(made, self.value(node.iftrue, kind))
        self.emit("} else {")
        self.write_direct(made, self.value(node.iffalse, kind))
        self.emit("}")
        value = self.read_direct(made, node)
        value.stable = not isinstance(kind, Opaque)
        return value

    def choose_effect(self, node):
        self.emit(f"if ({self.condition(node.cond)}) {{")
        self.discard(node.iftrue)
        self.emit("} else {")
        self.discard(node.iffalse)
        self.emit("}")

    def address(self, node):
        """`&x`, `&p->f`, `&*p`."""
        inner = node.expr
        if isinstance(inner, c_ast.UnaryOp) and inner.op == "*":
            return self.value(inner.expr)
        place = self.lvalue(inner)
        if isinstance(place, Whole):
            if place.path:
                self.refuse(
                    node,
                    f"'{shown(node)}'",
                    "a pointer to a struct within a struct is not followed",
                    "allocate the inner struct by itself, or hand over the outer one",
                )
            return Value(place.text, Pointer(place.tag), stable=isinstance(inner, c_ast.ID), is_path=True)
        if isinstance(place, Direct) and place.stored:
            return self.address_of_field(node, inner, place)
        if isinstance(place, Chosen):
            self.refuse_silently()
        self.refuse(
            node, f"'{shown(node)}'", "the address of an array's element is not followed", "use the element itself"
        )

    def address_of_field(self, node, inner, place):
        if isinstance(place.kind, PlacePointer):
            self.refuse(
                node,
                f"'{shown(node)}'",
                "it is a pointer to a pointer to a pointer",
                "return the value in place of storing it through a pointer",
            )
        representation = self.program.representation(place.kind)
        if representation == BROKEN:
            self.refuse_silently()
        base, field = place.text.rsplit("->", 1)
        if isinstance(inner, c_ast.StructRef) and not self.is_variable_field(inner):
            with self.at(node):
                self.emit(f"assert({base} != NULL);", meaning="null", subject=shown(inner.name))
        tag = self.kinds.of(path_of(inner)[0]).tag if isinstance(inner, c_ast.StructRef) else representation.tag
        return self.place_value(representation, place.kind, (tag, field), base, isinstance(inner, c_ast.ID))

    def place_value(self, representation, kind, target, base, stable):
        """The address of a field of the block at `base`."""
        texts = [base if tag == target[0] else "NULL" for tag in representation.tags]
        more = (*texts[1:], str(representation.targets.index(target))) if representation.chooses else ()
        return Value(texts[0], PlacePointer(kind), stable=stable, more=more, is_path=texts[0] == base)

    def null_of(self, kind):
        """The null pointer of a kind, or the text that is null."""
        if kind == TEXT:
            return number(0, TEXT)
        has_rest = isinstance(kind, PlacePointer) and self.program.representation(kind) != BROKEN
        return null(kind, self.program.representation(kind).rest_of_null() if has_rest else ())

    def is_variable_field(self, node):
        return (
            node.type == "." and isinstance(self.kinds.of(node.name), StructValue) and isinstance(node.name, c_ast.ID)
        )

    # Conversions

    def converted(self, value, kind, node):
        """The value as one of another kind, where C converts it by itself or by a cast."""
        if value.kind == kind or kind is None or kind == VOID:
            return value
        if kind == BROKEN or value.kind == BROKEN:
            self.refuse_silently()
        if is_number(kind) and is_number(value.kind):
            return self.converted_number(value, kind)
        if kind == BOOL and is_address(value.kind):
            return self.boolean(f"{value.text} != {'0' if value.kind == TEXT else 'NULL'}")
        if value.constant == 0 and is_address(kind):
            return self.null_of(kind)
        self.refuse(
            node,
            f"'{shown(node)}' as a value of type '{kind}'",
            f"its own type is '{value.kind}'",
            "keep one type for each value",
        )

    def converted_number(self, value, kind):
        if isinstance(kind, Opaque):
            if value.constant is not None:
                return Value("0", kind, constant=value.constant)
            return arbitrary(kind, touches_of(value))
        if isinstance(value.kind, Opaque):
            if value.constant is not None and constants.INT_MIN <= value.constant <= constants.INT_MAX:
                return self.converted_number(number(value.constant), kind)
            value = arbitrary(INT, value.touches)
        if kind == BOOL and not value.is_truth:
            if value.constant is not None:
                return number(int(value.constant != 0), BOOL)
            return self.boolean(f"{value.text} != 0")
        return Value(value.text, kind, value.constant, value.stable, is_path=value.is_path, is_truth=value.is_truth)

    def boolean(self, test):
        made = self.temporary(BOOL, number(0))
        self.emit(f"if ({test}) {made.text} = 1;")
        return Value(made.text, BOOL, stable=True, is_path=True, is_truth=True)

    # Conditions

    def truth(self, node):
        """A condition as a number."""
        test = self.condition(node)
        made = self.temporary(INT, number(0))
        self.emit(f"if ({test}) {made.text} = 1;")
        return Value(made.text, INT, stable=True, is_path=True, is_truth=True)

    def condition(self, node):
        """A condition of the translated language."""
        known = self.known_number(node)
        if known is not None:
            return "1" if known.constant else "0"
        if isinstance(node, c_ast.UnaryOp) and node.op == "!":
            return negated(self.condition(node.expr))
        if isinstance(node, c_ast.BinaryOp) and node.op in ("&&", "||"):
            return self.connected(node)
        if isinstance(node, c_ast.BinaryOp) and node.op in COMPARISONS:
            return self.comparison(node)
        if isinstance(node, c_ast.ExprList):
            for it in node.exprs[:-1]:
                self.discard(it)
            return self.condition(node.exprs[-1])
        return self.tested(self.value(node), node)

    def tested(self, value, node):
        if value.constant is not None:
            return "1" if value.constant else "0"
        if isinstance(value.kind, Opaque) or is_number(value.kind) or value.kind == TEXT:
            return f"{value.text} != 0"
        if isinstance(value.kind, (Pointer, PlacePointer)):
            return self.not_null(value)
        self.refuse(
            node, f"'{shown(node)}' as a condition", f"its type is '{value.kind}'", "compare numbers or pointers"
        )

    def not_null(self, value):
        """The test that a pointer is not null: of a place, that one of its pointers is not."""
        texts = [value.text, *value.more[:-1]]
        return " || ".join(f"{it} != NULL" for it in texts)

    def connected(self, node):
        """`a && b`, `a || b`: statements of b are written only where b counts."""
        left = self.condition(node.left)
        with self.captured() as after:
            right = self.condition(node.right)
        if not after:
            return f"({left}) {node.op} ({right})"
        made = self.temporary(INT, number(0 if node.op == "&&" else 1))
        self.emit(f"if ({left}) {{" if node.op == "&&" else f"if ({negated(left)}) {{")
        self.flush(after)
        self.emit(
            f"if ({right}) {made.text} = 1; }}" if node.op == "&&" else f"if ({negated(right)}) {made.text} = 0; }}"
        )
        return f"{made.text} != 0"

    def comparison(self, node):
        left, right = self.operands(node)
        if is_number(left.kind) and is_number(right.kind):
            return self.compared_numbers(node, left, right)
        self.check_comparable(node, left, right)
        if node.op not in ("==", "!="):
            self.note(node, "which of two pointers is less is not followed: it is either")
            for it in (left, right):
                if it.constant is None:
                    self.touch(it.text, it.kind)
            return "input() != 0"
        if left.kind == TEXT or right.kind == TEXT:
            return self.compared_texts(node, left, right)
        if left.more or right.more:
            return self.compared_places(node, left, right)
        return f"{left.text} {node.op} {right.text}"

    def check_comparable(self, node, left, right):
        kinds = {it.kind for it in (left, right) if not (it.text == "NULL" or it.constant == 0)}
        if len(kinds) > 1 or not all(is_address(it) and it != VOID_POINTER for it in kinds):
            self.refuse(node, f"'{shown(node)}'", "its sides are of different types", "compare values of one type")

    def compared_numbers(self, node, left, right):
        opaque = isinstance(left.kind, Opaque) or isinstance(right.kind, Opaque)
        enumerations = isinstance(left.kind, Enumeration) or isinstance(right.kind, Enumeration)
        if opaque or enumerations and node.op not in ("==", "!="):
            return f"{arbitrary(INT, (*touches_of(left), *touches_of(right))).text} != 0"
        return f"{left.text} {node.op} {right.text}"

    def compared_places(self, node, left, right):
        """Places are equal where all their parts are."""
        if left.constant == 0 or right.constant == 0:
            differ = self.not_null(left if right.constant == 0 else right)
            return differ if node.op == "!=" else negated(differ)
        pairs = zip([left.text, *left.more], [right.text, *right.more])
        same = " && ".join(f"{one} == {other}" for one, other in pairs)
        return same if node.op == "==" else f"!({same})"

    def compared_texts(self, node, left, right):
        if left.constant == 0 or right.constant == 0:
            return f"{left.text} {node.op} {right.text}"
        left, right = self.spill(left), self.spill(right)
        same = f"{left.text} == {right.text} && ({left.text} == 0 || input() != 0)"
        return same if node.op == "==" else f"!({same})"

    # Effects

    def discard(self, node):
        """Evaluates an expression for what it does."""
        if isinstance(node, c_ast.Assignment):
            self.assign(node, False)
        elif isinstance(node, c_ast.UnaryOp) and node.op in STEPS:
            self.step(node, False)
        elif isinstance(node, c_ast.FuncCall):
            self.call(node, None, False)
        elif isinstance(node, c_ast.ExprList):
            for it in node.exprs:
                self.discard(it)
        elif isinstance(node, c_ast.Cast):
            self.discard(node.expr)
        elif isinstance(node, c_ast.TernaryOp):
            self.choose_effect(node)
        elif isinstance(node, c_ast.BinaryOp) and node.op in ("&&", "||"):
            self.emit(f"if ({self.condition(node)}) {{ }}")
        elif not isinstance(node, (c_ast.ID, c_ast.Constant)) or self.kinds.of(node) == BROKEN:
            self.drop(self.value(node))

    def drop(self, value):
        if is_number(value.kind) or value.kind == TEXT:
            for it in touches_of(value):
                self.touch(it)
        elif value.constant is None:
            self.touch(value.text, value.kind)

    def assign(self, node, used):
        """An assignment, and its value where that is used."""
        kind = self.kinds.of(node.lvalue)
        if isinstance(kind, StructValue):
            return self.copy_struct(node)
        parts = lvalue_parts(node.lvalue)
        if parts is not None and clash(self.program, parts, node.rvalue):
            self.refuse(
                node,
                f"'{shown(node)}'",
                "its right side changes what its left side reads, in an order that C leaves open",
                "write two statements",
            )
        if node.op != "=":
            return self.compound_assign(node, used)
        if not used and self.assign_directly(node, kind):
            return None
        value = self.value(node.rvalue, kind)
        if used and not value.stable:
            value = self.spill(value)
        with self.captured() as after:
            place = self.lvalue(node.lvalue)
        if after and not value.stable:
            value = self.spill(value)
        self.flush(after)
        self.write(place, value, node.lvalue)
        return value

    def assign_directly(self, node, kind):
        """A call or an allocation as the whole right side, put straight into its place."""
        if kind == BROKEN or not (isinstance(kind, Pointer) or kind in (INT, TEXT) or isinstance(kind, Enumeration)):
            return False
        with self.captured() as before:
            text = self.right_side(node.rvalue, kind)
        if text is None:
            return False
        with self.captured() as after:
            place = self.lvalue(node.lvalue)
        self.flush(before)
        if isinstance(place, Direct) and place.stored:
            self.flush(after)
            self.emit(f"{place.text} = {text};", simple=True)
            return True
        made = self.temporary(kind)
        self.emit(f"{made.text} = {text};", simple=True)
        self.flush(after)
        self.write(place, self.read_direct(made, node), node.lvalue)
        return True

    def compound_assign(self, node, used):
        operator = node.op[:-1]
        operation = c_ast.BinaryOp(operator, node.lvalue, node.rvalue, node.coord)
        if clash(self.program, node.lvalue, node.rvalue):
            self.refuse(
                node,
                f"'{shown(node)}'",
                "its right side changes its left side, in an order that C leaves open",
                "write two statements",
            )
        if Effects(self.program, node.rvalue).calls and self.may_be_changed(node.lvalue):
            self.note(
                node,
                "C leaves open whether the left side is read before the call on the right; it is read after it, here",
            )
        right = self.value(node.rvalue)
        with self.captured() as after:
            place = self.lvalue(node.lvalue)
        if after:
            right = self.spill(right)
        self.flush(after)
        old = self.read(place, node.lvalue)
        if not is_number(old.kind) or not is_number(right.kind):
            self.refuse(
                node,
                f"'{shown(node)}'",
                "arithmetic on pointers is not followed",
                "use a list, or a field for each element",
            )
        return self.store_result(node, place, self.arithmetic(operation, old, right), used)

    def may_be_changed(self, node):
        """Whether a call may change what an lvalue holds."""
        found = self.program.resolved.get(id(node)) if isinstance(node, c_ast.ID) else None
        return found is None or found.is_global or found.addressed

    def step(self, node, used):
        """`++` and `--`, before or after."""
        place = self.lvalue(node.expr)
        old = self.read(place, node.expr)
        if not is_number(old.kind):
            self.refuse(
                node,
                f"'{shown(node)}'",
                "arithmetic on pointers is not followed",
                "use a list, or a field for each element",
            )
        after = used and node.op.startswith("p")
        if after:
            old = self.spill(old)
        if isinstance(old.kind, Opaque) or isinstance(old.kind, Enumeration):
            new = arbitrary(INT, touches_of(old))
        else:
            new = Value(f"{old.text} {STEPS[node.op]} 1", INT)
        made = self.store_result(node.expr, place, new, used and not after)
        return old if after else made

    def store_result(self, node, place, value, used):
        kind = place.kind
        made = self.converted(value, kind, node)
        if used and not made.stable:
            made = self.spill(made)
        self.write(place, made, node)
        return made if used else None

    def copy_struct(self, node):
        """`*p = *q`, `s = t`, `*p = (struct s){ .. }`: field by field, all values first."""
        if node.op != "=":
            self.refuse(node, f"'{shown(node)}'", "a struct is no number", "change its fields")
        right = node.rvalue
        if isinstance(right, c_ast.CompoundLiteral):
            return self.copy_literal(node, right)
        if not isinstance(right, (c_ast.ID, c_ast.StructRef, c_ast.ArrayRef, c_ast.UnaryOp, c_ast.Assignment)):
            self.refuse(
                node, f"'{shown(node)}'", "its right side is no variable or field", "copy the fields that are needed"
            )
        source = self.lvalue(right)
        target = self.lvalue(node.lvalue)
        if not isinstance(source, Whole) or not isinstance(target, Whole):
            self.refuse_silently()
        self.note(node, "a struct is copied field by field: each field must have been set")
        for it in leaves(self.program, source.tag):
            if it.path[: len(source.path)] == source.path:
                self.copy_leaf(it, source, target, node)
        return number(0)

    def copy_leaf(self, it, source, target, node):
        if isinstance(it.kind, Array):
            self.refuse(node, f"'{shown(node)}'", "it copies an array", "copy the elements that are needed")
        if it.kind == BROKEN:
            self.refuse_silently()
        path = (*target.path, *it.path[len(source.path) :])
        self.write(self.leaf_place(target, path, node), self.read(self.leaf_place(source, it.path, node), node), node)

    def copy_literal(self, node, literal):
        """A struct gets the fields that are given, and zeros; all are worked out before one is stored."""
        target = self.lvalue(node.lvalue)
        if not isinstance(target, Whole):
            self.refuse_silently()
        given = self.given_fields(target, literal.init)
        values = {path: self.field_value(target, path, it, node) for path, it in given.items()}
        for it in leaves(self.program, target.tag):
            if it.path[: len(target.path)] == target.path and it.path not in values:
                self.zero_leaf(target.text, it)
        for path, value in values.items():
            self.write(self.leaf_place(target, path, node), value, node)
        return number(0)

    def field_value(self, target, path, initial, node):
        place = self.leaf_place(target, path, node)
        if not isinstance(place, Direct) or isinstance(initial, c_ast.InitList):
            self.refuse(
                node, f"'{shown(node)}'", "it gives a value to a struct or array within the struct", "assign the fields"
            )
        value = self.value(initial, place.kind)
        return value if isinstance(place.kind, Opaque) and not value.touches else self.spill(value)


WANTING = {"Cast", "FuncCall", "UnaryOp", "TernaryOp"}

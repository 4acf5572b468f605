"""Statements."""

from pycparser import c_ast

from .calls import Calls
from .collect import constant
from .expressions import negated
from .facts import nodes_below
from .kinds import VOID, Array, Opaque, PlacePointer
from .memory import shown
from .messages import Stop
from .structs import declared, leaves, parts
from .switches import Switches
from .values import Element, Slots, Value, Whole, null, touches_of

LOOPS = (c_ast.While, c_ast.DoWhile, c_ast.For)


def never_goes_on(node):
    """Whether what follows a statement in its block is not reached."""
    if isinstance(node, c_ast.Compound):
        return any(never_goes_on(it) for it in node.block_items or [])
    if isinstance(node, c_ast.If):
        return node.iffalse is not None and never_goes_on(node.iftrue) and never_goes_on(node.iffalse)
    if isinstance(node, c_ast.Label):
        return never_goes_on(node.stmt)
    return isinstance(node, (c_ast.Return, c_ast.Break, c_ast.Continue, c_ast.Goto))


def leaves_loop(node):
    """Whether a statement has a `break` or `continue` of the loop that it is the body of."""
    if isinstance(node, (c_ast.Break, c_ast.Continue)):
        return True
    return not isinstance(node, LOOPS) and any(leaves_loop(it) for _, it in node.children())


class Statements(Switches, Calls):
    """Lowers statements."""

    def statement(self, node):
        """One statement; where it is refused, the next one is still read."""
        if node is None:
            return
        handler = getattr(self, "statement_" + type(node).__name__, None)
        with self.at(node):
            try:
                if handler:
                    handler(node)
                else:
                    self.expression_statement(node)
            except Stop:
                self.accesses = []

    def expression_statement(self, node):
        self.in_braces(lambda: self.discard(node))

    def in_braces(self, write):
        """Writes statements, in a block of their own where temporaries are among them."""
        before = self.temporaries
        with self.captured() as made:
            write()
        if self.temporaries > before:
            self.emit("{")
            self.flush(made)
            self.emit("}")
        else:
            self.flush(made)

    def body(self, node):
        """A statement between braces that are written already."""
        if isinstance(node, c_ast.Compound):
            self.items(node.block_items or [])
        else:
            with self.scope() as scope:
                self.statement(node)
                if not never_goes_on(node):
                    self.free_blocks([scope])

    def items(self, nodes):
        """The statements of a block."""
        with self.scope() as scope:
            for i, it in enumerate(nodes):
                self.rest = nodes[i + 1 :]
                self.statement(it)
            if not any(never_goes_on(it) for it in nodes):
                self.free_blocks([scope])

    def statement_Compound(self, node):
        self.emit("{")
        self.body(node)
        self.emit("}")

    def statement_EmptyStatement(self, _):
        self.emit(";")

    def statement_Pragma(self, _):
        pass

    def statement_StaticAssert(self, _):
        pass

    def statement_Typedef(self, _):
        pass

    # Declarations

    def statement_DeclList(self, node):
        for it in node.decls:
            self.statement(it)

    def statement_Decl(self, node):
        variable = self.program.resolved.get(id(node))
        if variable is None or variable.is_global:
            return
        self.check_kind(variable.kind, variable.name, node)
        if not variable.text:
            self.name(variable)
        if variable in self.hoisted:
            self.initialise(variable, node.init, declare=False)
        else:
            self.initialise(variable, node.init, declare=True)

    def initialise(self, variable, initial, declare):
        if variable.is_block:
            if declare:
                self.make_block(variable, variable.text)
                self.scopes[-1].blocks.append(variable)
            if initial is not None:
                self.in_braces(lambda: self.fill(self.place_of_variable(variable, initial), initial))
        elif isinstance(variable.kind, Array):
            self.declare_array(variable, initial, declare)
        else:
            self.declare_scalar(variable, initial, declare)

    def declare_array(self, variable, initial, declare):
        place = self.place_of_variable(variable, variable.place)
        if declare and isinstance(place, Slots):
            for it in place.texts:
                self.emit(declared(it, place.kind) + ";")
        if isinstance(place, Element):
            self.note(variable.place, f"the elements of '{variable.name}' are not followed: each read gives any number")
        if initial is not None:
            self.in_braces(lambda: self.fill(place, initial))

    def declare_scalar(self, variable, initial, declare):
        """A variable of one value, with its first value in its declaration where that is simple."""
        pieces = parts(self.program, variable.text, variable.kind)
        if initial is not None and len(pieces) == 1 and declare:
            before = self.temporaries
            with self.captured() as made:
                text = self.initial_text(variable, initial)
            if self.temporaries == before:
                self.flush(made)
                self.emit(f"{declared(*pieces[0])} = {text};")
                return
        if declare:
            for text, kind in pieces:
                self.emit(declared(text, kind) + ";")
        if initial is not None:
            place = self.place_of_variable(variable, initial)
            self.in_braces(lambda: self.store_initial(place, variable, initial))

    def store_initial(self, place, variable, initial):
        text = self.direct_right_side(initial, variable.kind)
        if text is None:
            self.write(place, self.value(self.scalar_initial(initial), variable.kind), initial)
        else:
            self.emit(f"{place.text} = {text};", simple=True)

    def direct_right_side(self, node, kind):
        if isinstance(kind, (Opaque, PlacePointer)):
            return None
        return self.right_side(node, kind)

    def initial_text(self, variable, initial):
        text = self.direct_right_side(initial, variable.kind)
        if text is None:
            text = self.stored_text(self.value(self.scalar_initial(initial), variable.kind), variable.kind)
        return text

    def scalar_initial(self, node):
        return node.exprs[0] if isinstance(node, c_ast.InitList) and node.exprs else node

    # Initialisers of structs and arrays

    def fill(self, place, initial):
        """Stores an initialiser into a place."""
        if isinstance(place, Whole):
            self.fill_struct(place, initial)
        elif isinstance(place, Slots):
            self.fill_slots(place, initial)
        elif isinstance(place, Element):
            for it in initial.exprs if isinstance(initial, c_ast.InitList) else []:
                for text in touches_of(self.value(it.expr if isinstance(it, c_ast.NamedInitializer) else it)):
                    self.touch(text)
        else:
            self.write(place, self.value(self.scalar_initial(initial), place.kind), initial)

    def fill_slots(self, place, initial):
        given = initial.exprs if isinstance(initial, c_ast.InitList) else []
        if any(isinstance(it, c_ast.NamedInitializer) for it in given):
            self.refuse(initial, "initialiser of single elements", "it is not read", "assign the elements")
        for i, text in enumerate(place.texts):
            value = self.value(given[i], place.kind) if i < len(given) else null(place.kind)
            self.emit(f"{text} = {value.text};", simple=True)

    def fill_struct(self, place, initial):
        if not isinstance(initial, c_ast.InitList):
            self.refuse(
                initial, f"'{shown(initial)}'", "a struct is copied as a whole", "copy the fields that are needed"
            )
        given = self.given_fields(place, initial)
        for it in leaves(self.program, place.tag):
            if it.path[: len(place.path)] == place.path and not any(it.path[: len(path)] == path for path in given):
                self.zero_leaf(place.text, it)
        for path, node in given.items():
            self.fill(self.leaf_place(place, path, initial), node)

    def given_fields(self, place, initial):
        """The fields that an initialiser names, or the first ones in order."""
        structure = self.program.structures[place.tag]
        for name in place.path:
            structure = self.program.structures[structure.find(name).kind.tag]
        names, at, given = [it.name for it in structure.fields], 0, {}
        for it in initial.exprs:
            if isinstance(it, c_ast.NamedInitializer):
                if len(it.name) != 1 or not isinstance(it.name[0], c_ast.ID):
                    self.refuse(it, "initialiser of a part of a field", "it is not read", "assign the field")
                at, it = names.index(it.name[0].name), it.expr
            if at >= len(names):
                self.refuse(
                    initial, "initialiser", "it has more values than the struct has fields", "give each field one value"
                )
            given[(*place.path, names[at])] = it
            at += 1
        if list(given) == [(*place.path, names[0])] and constant(self.program, given[(*place.path, names[0])]) == 0:
            return {}
        return given

    # Choices

    def statement_If(self, node):
        with self.captured() as before:
            test = self.condition(node.cond)
            self.emit(f"if ({test}) {{")
        wrap = len(before) > 1
        if wrap:
            self.emit("{")
        self.flush(before)
        self.body(node.iftrue)
        self.emit("}")
        if node.iffalse is not None:
            self.emit("else {")
            self.body(node.iffalse)
            self.emit("}")
        if wrap:
            self.emit("}")

    # Loops

    def statement_While(self, node):
        with self.captured() as before:
            test = self.condition(node.cond)
        with self.scope(loop=node):
            if before:
                self.emit("while (1) {")
                self.leave_unless(node.cond)
            else:
                self.emit(f"while ({test}) {{")
            self.body(node.stmt)
            self.emit("}")

    def leave_unless(self, condition):
        """Leaves the loop where a condition is false, whose evaluation takes statements."""

        def write():
            self.accesses = []
            self.emit(f"if ({negated(self.condition(condition))}) break;")

        with self.at(condition):
            self.in_braces(write)

    def statement_DoWhile(self, node):
        if constant(self.program, node.cond) == 0 and not leaves_loop(node.stmt):
            self.statement(node.stmt)  # as macros are written
            return
        with self.captured() as before:
            test = self.condition(node.cond)
        with self.scope(loop=node):
            self.scopes[-1].again = (lambda: self.leave_unless(node.cond)) if before else None
            if before:
                self.emit("while (1) {")
                self.body(node.stmt)
                self.leave_unless(node.cond)
                self.emit("}")
            else:
                self.emit("do {")
                self.body(node.stmt)
                with self.at(node.cond):
                    self.emit(f"}} while ({test});")

    def statement_For(self, node):
        declares = isinstance(node.init, c_ast.DeclList)
        if declares:
            self.emit("{")
        with self.scope() as head:
            self.statement(node.init)
            with self.captured() as before:
                test = self.condition(node.cond) if node.cond is not None else ""
            with self.captured() as step:
                self.step_statement(node.next)
            simple = len(step) <= 1 and all(it.simple for it in step)
            with self.scope(loop=node):
                if before or not simple:
                    self.long_for(node, test, before)
                else:
                    self.short_for(node, test, step)
            self.free_blocks([head])
        if declares:
            self.emit("}")

    def step_statement(self, node):
        if node is not None:
            with self.at(node):
                self.in_braces(lambda: self.discard(node))

    def short_for(self, node, test, step):
        text = step[0].text.rstrip(";") if step else ""
        self.accesses += step[0].origin.accesses if step else []
        self.emit(f"for (; {test}; {text}) {{")
        self.body(node.stmt)
        self.emit("}")

    def long_for(self, node, test, before):
        """A loop whose step is written at each place from which the next turn begins."""
        self.scopes[-1].again = lambda: self.step_statement(node.next)
        if before:
            self.emit("while (1) {")
            self.leave_unless(node.cond)
        else:
            self.emit(f"while ({test or '1'}) {{")
        self.body(node.stmt)
        if not never_goes_on(node.stmt):
            self.step_statement(node.next)
        self.emit("}")

    def inner_scopes(self, is_target):
        """The scopes that a jump leaves, up to its target."""
        for i in range(len(self.scopes) - 1, -1, -1):
            if is_target(self.scopes[i]):
                return self.scopes[i], self.scopes[i + 1 :]
        return None, self.scopes

    def statement_Break(self, node):
        target, left = self.inner_scopes(lambda it: it.loop is not None or it.is_switch)
        if target is None or target.is_switch:
            self.refuse(node, "break", "its place in the 'switch' is not read", "end each case with it")
        self.free_blocks(left)
        self.emit("break;", ends=True)

    def statement_Continue(self, node):
        target, left = self.inner_scopes(lambda it: it.loop is not None)
        if target is None:
            self.refuse(node, "continue", "it stands in no loop", "leave it out")
        if getattr(target, "again", None) is None:
            self.free_blocks(left)
            self.emit("continue;", ends=True)
            return
        self.emit("{")
        self.free_blocks(left)
        target.again()
        self.emit("continue; }", ends=True)

    # Leaving the function

    def statement_Return(self, node):
        kind = self.function.result
        if node.expr is None or kind == VOID:
            if node.expr is not None:
                self.discard(node.expr)
            self.free_blocks(self.scopes)
            self.emit("return;" if kind == VOID else "return 0;", ends=True)
            return
        self.result_kind(kind, node)
        self.in_braces(lambda: self.return_value(node.expr, kind))

    def return_value(self, node, kind):
        has_blocks = any(scope.blocks for scope in self.scopes)
        text = self.direct_right_side(node, kind)
        if text is None or has_blocks:
            value = Value(text, kind) if text is not None else self.value(node, kind)
            if has_blocks and (not value.stable or text is not None):
                value = self.kept_result(value, kind)
            text = self.stored_text(value, kind)
        self.free_blocks(self.scopes)
        self.emit(f"return {text};", ends=True)

    def kept_result(self, value, kind):
        made = self.temporary(kind)
        self.emit(f"{made.text} = {self.stored_text(value, kind)};", simple=True)
        return Value(made.text, kind, stable=True, touches=(made.text,) if isinstance(kind, Opaque) else ())

    # Labels

    def statement_Label(self, node):
        self.statement(node.stmt)

    def statement_Goto(self, node):
        """The statements from the label on, to the end of the function, written once more."""
        tail = self.tails.get(node.name)
        if tail is None:
            self.refuse(
                node,
                f"goto {node.name}",
                "its label does not stand at the top of the function",
                "use a loop, 'break' or 'return'",
            )
        label, rest = tail
        if self.before_label(label, node):
            self.refuse(node, f"goto {node.name}", "it goes back", "write a loop")
        if node.name in self.open_gotos:
            self.refuse_silently()
        self.open_gotos.append(node.name)
        kept, floating = self.scopes, self.floating
        self.floating = True
        left, self.scopes = self.scopes[2:], [self.copy_of(it) for it in self.scopes[:2]]
        self.emit("{")
        self.free_blocks(left)
        for it in rest:
            self.rest = rest[rest.index(it) + 1 :]
            self.statement(it)
        if not any(never_goes_on(it) for it in rest):
            self.free_blocks(self.scopes)
            self.emit("return;" if self.function.result == VOID else "return 0;", ends=True)
        self.emit("}")
        self.scopes, self.floating = kept, floating
        self.open_gotos.pop()

    def copy_of(self, scope):
        return type(scope)(list(scope.blocks), scope.loop, scope.is_switch)

    def before_label(self, label, node):
        return (label.coord.line, label.coord.column or 0) <= (node.coord.line, node.coord.column or 0)

    def find_tails(self, items):
        """For each label at the top of the function the statements from there on."""
        found = {}
        for i, it in enumerate(items):
            inner = it
            while isinstance(inner, c_ast.Label):
                found[inner.name] = (inner, [inner.stmt, *items[i + 1 :]])
                inner = inner.stmt
        return found

    def uses_goto(self, body):
        return any(isinstance(it, c_ast.Goto) for it in nodes_below(body))

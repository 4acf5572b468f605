"""`switch`: a chain of tests, with what a case falls through to written again."""

from pycparser import c_ast

from . import constants
from .collect import constant
from .kinds import INT, Enumeration, Opaque
from .memory import shown

LOOPS = (c_ast.While, c_ast.DoWhile, c_ast.For, c_ast.Switch)


def has_break(node):
    """Whether a statement has a `break` of the switch that it stands in."""
    if isinstance(node, c_ast.Break):
        return True
    if node is None or isinstance(node, LOOPS):
        return False
    return any(has_break(it) for _, it in node.children())


def has_case(node):
    if isinstance(node, c_ast.Switch):
        return False
    return isinstance(node, (c_ast.Case, c_ast.Default)) or any(has_case(it) for _, it in node.children())


def flattened(node):
    """The statements of a block, or the statement alone."""
    if node is None:
        return []
    return list(node.block_items or []) if isinstance(node, c_ast.Compound) else [node]


class Groups:
    """The groups of a switch: their labels, and their statements."""

    def __init__(self, node):
        self.found = []
        for it in flattened(node.stmt):
            self.add(it)

    def add(self, node):
        if isinstance(node, (c_ast.Case, c_ast.Default)):
            label = node.expr if isinstance(node, c_ast.Case) else None
            if self.found and not self.found[-1][1]:
                self.found[-1][0].append(label)
            else:
                self.found.append(([label], []))
            for it in node.stmts or []:
                self.add(it)
        elif self.found:
            self.found[-1][1].append(node)

    def run(self, at):
        """What is run from a group on: its statements, and those that it falls through to."""
        made = []
        self.falls_at = None
        for _, statements in self.found[at:]:
            if made and self.falls_at is None:
                self.falls_at = len(made)
            for it in statements:
                if isinstance(it, c_ast.Break):
                    return made
                made.append(it)
                if isinstance(it, (c_ast.Return, c_ast.Continue, c_ast.Goto)):
                    return made
                if isinstance(it, c_ast.Compound) and any(
                    isinstance(one, (c_ast.Break, c_ast.Return)) for one in it.block_items or []
                ):
                    return made
        return made


class Switches:
    """Lowers `switch`."""

    def statement_Switch(self, node):
        groups = Groups(node)
        nested = [it for _, statements in groups.found for it in statements if has_case(it)]
        if nested:
            self.refuse(
                nested[0], "case within another statement", "the switch is not read as a chain of tests", "write 'if'"
            )
        self.in_braces(lambda: self.chain(node, groups))

    def chain(self, node, groups):
        value = self.value(node.cond)
        if not isinstance(value.kind, Enumeration) and isinstance(value.kind, Opaque):
            value = self.spill_arbitrary(value)
        elif not self.keeps(node.cond, value, node.stmt):
            value = self.spill(value)
        default = None
        closing = 0
        for i, (labels, statements) in enumerate(groups.found):
            if None in labels:
                default = i
                continue
            tests = [f"{value.text} == {self.label(it)}" for it in labels]
            run = groups.run(i)
            self.case(
                " || ".join(f"({it})" for it in tests) if len(tests) > 1 else tests[0],
                run,
                statements or node,
                groups.falls_at,
            )
            closing += 1
        if default is not None:
            self.emit("{")
            self.run_statements(groups.run(default))
            self.emit("}")
        elif closing:
            self.emit("{ }")

    def keeps(self, node, value, body):
        """Whether the value may be tested as it stands, which is before any case is run."""
        return value.stable or value.is_path and isinstance(node, c_ast.ID) and body is not None

    def spill_arbitrary(self, value):
        return self.spill(self.converted(value, INT, None))

    def label(self, node):
        found = constant(self.program, node)
        if found is None:
            self.refuse(node, f"case '{shown(node)}'", "it is no number that is known", "use a constant")
        return constants.spelled(found)

    def case(self, test, run, statements, falls_at):
        place = statements[0] if isinstance(statements, list) else statements
        with self.at(place):
            self.emit(f"if ({test}) {{")
        before, self.floating = self.floating, self.floating or bool(falls_at and falls_at < len(run))
        self.run_statements(run)
        self.floating = before
        self.emit("} else")

    def run_statements(self, nodes):
        with self.scope(is_switch=True) as scope:
            self.run_nodes(nodes)
            if not self.fragments or not self.fragments[-1].ends:
                self.free_blocks([scope])

    def run_nodes(self, nodes):
        """Statements of a case; where a `break` stands in an `if`, what follows goes into its other branch."""
        for i, it in enumerate(nodes):
            if isinstance(it, c_ast.Break):
                return
            if not has_break(it):
                self.statement(it)
                if isinstance(it, (c_ast.Return, c_ast.Continue, c_ast.Goto)):
                    return
            elif isinstance(it, c_ast.Compound):
                self.emit("{")
                self.run_statements([*flattened(it), *nodes[i + 1 :]] if not self.leaves(it) else flattened(it))
                self.emit("}")
                return
            elif isinstance(it, c_ast.If):
                self.split(it, nodes[i + 1 :])
                return
            else:
                self.statement(it)

    def leaves(self, node):
        return any(isinstance(it, (c_ast.Break, c_ast.Return, c_ast.Continue, c_ast.Goto)) for it in flattened(node))

    def split(self, node, rest):
        for it in (*flattened(node.iftrue), *flattened(node.iffalse)):
            variable = self.program.resolved.get(id(it))
            if isinstance(it, c_ast.Decl) and variable is not None and variable.is_block:
                self.refuse(
                    it,
                    f"'{it.name}' before a 'break' of the switch",
                    "its block of memory would live too long",
                    "declare it before the switch",
                )
        with self.at(node):
            self.emit("{")
            self.emit(f"if ({self.condition(node.cond)}) {{")
            self.run_statements([*flattened(node.iftrue), *rest])
            self.emit("} else {")
            self.run_statements([*flattened(node.iffalse), *rest])
            self.emit("} }")

"""Facts about a whole program: what is addressed, who calls whom, what may be freed where."""

from pycparser import c_ast

from .allocators import stops_on_failure
from .expression_kinds import ExpressionKinds
from .kinds import BROKEN, Array, PlacePointer, Pointer, StructValue
from .messages import Stop
from .model import Field, PlaceRepresentation, Structure, Variable
from .structs import leaf


def nodes_below(node):
    """The node and all below it."""
    yield node
    for _, it in node.children():
        yield from nodes_below(it)


def path_of(node):
    """The base of `base->a.b` or `base.a.b`, whether it is reached by `->`, and the names."""
    names = []
    while isinstance(node, c_ast.StructRef):
        names.insert(0, node.field.name)
        if node.type == "->":
            return node.name, True, names
        node = node.name
    return node, False, names


class Facts:
    """Fills in a Program what one statement alone does not tell."""

    def __init__(self, program, log, path):
        self.program = program
        self.log = log
        self.path = path
        self.kinds = ExpressionKinds(program)
        self.fields = {}

    def find(self):
        found = {it.name: stops_on_failure(it) for it in self.program.functions.values()}
        self.program.allocators = {name: it for name, it in found.items() if it is not None}
        for it in self.program.functions.values():
            self.scan(it.node.body, it)
        for it in self.program.globals:
            if it.initial is not None:
                self.scan(it.initial, None)
        self.represent()
        self.refuse_recursion()
        self.spread_calls()
        return self.program

    def scan(self, body, function):
        for node in nodes_below(body):
            if isinstance(node, c_ast.UnaryOp) and node.op == "&":
                self.address(node.expr)
            elif isinstance(node, c_ast.FuncCall) and function and getattr(node.name, "name", "") == "free":
                freed = node.args.exprs[0] if node.args else None
                while isinstance(freed, c_ast.Cast):
                    freed = freed.expr
                kind = self.kinds.of(freed)
                if isinstance(kind, Pointer):
                    function.frees.add(kind.tag)

    # Addresses

    def address(self, node):
        if isinstance(node, c_ast.ID):
            found = self.program.resolved.get(id(node))
            if isinstance(found, Variable):
                found.addressed = True
        elif isinstance(node, c_ast.StructRef):
            kind = self.kinds.of(node)
            base, _, names = path_of(node)
            of_base = self.kinds.of(base)
            if isinstance(of_base, (Pointer, StructValue)) and not isinstance(kind, (StructValue, Array)):
                found = leaf(self.program, of_base.tag, names)
                if found:
                    entry = (of_base.tag, found.text)
                    known = self.fields.setdefault(kind, [])
                    if entry not in known:
                        known.append(entry)

    def represent(self):
        """Decides how place pointers are kept, one representation for each kind that they point to."""
        for target in self.targets():
            fields = self.fields.get(target) or [(self.cell(target), "value")]
            self.program.representations[target] = PlaceRepresentation(fields)

    def targets(self):
        kinds = [it.kind for it in self.variables()]
        kinds += [field.kind for it in self.program.structures.values() for field in it.fields]
        kinds += [it.result for it in self.program.functions.values()]
        found = [it.target for it in kinds if isinstance(it, PlacePointer)]
        found += [it.kind for it in self.variables() if it.addressed and not isinstance(it.kind, (StructValue, Array))]
        found += list(self.fields)
        return [it for it in dict.fromkeys(found) if it != BROKEN and not isinstance(it, PlacePointer)]

    def variables(self):
        for it in self.program.functions.values():
            yield from it.locals
        yield from self.program.globals

    def cell(self, target):
        """A struct with one field, for variables whose address is taken."""
        name = target.tag if isinstance(target, Pointer) else str(target)
        tag = "cell_of_" + "_".join(word for word in name.replace("*", " pointer").split())
        if tag not in self.program.structures:
            place = self.program.structures[target.tag].place if isinstance(target, Pointer) else None
            made = Structure(tag, place, complete=True, added=True)
            made.fields.append(Field("value", target, place))
            self.program.structures[tag] = made
        return tag

    # Calls

    def callees(self, function):
        return [self.program.functions[it] for it in sorted(function.calls) if it in self.program.functions]

    def reachable(self, function):
        """The functions that a call of this one may run, without itself unless it is recursive."""
        found, open_ones = [], self.callees(function)
        while open_ones:
            it = open_ones.pop()
            if it not in found:
                found.append(it)
                open_ones += self.callees(it)
        return found

    def refuse_recursion(self):
        for it in self.program.functions.values():
            if it in self.reachable(it):
                self.refuse_cycle(it)

    def refuse_cycle(self, function):
        try:
            self.log.refuse(
                function.place,
                f"recursion of '{function.name}'",
                "calls are written out where they stand",
                "write a loop, with a stack or a pointer to the parent where it needs one",
            )
        except Stop:
            pass

    def spread_calls(self):
        functions = list(self.program.functions.values())
        below = {it: self.reachable(it) for it in functions}
        guarded = {it.kind.tag for it in self.program.globals if it.addressed and isinstance(it.kind, StructValue)}
        for it in functions:
            it.below = below[it]
            asserts = "assert_empty" in it.calls and bool(self.program.globals)
            it.uses_globals = it.uses_globals or asserts or bool(it.frees & guarded)
        for it in functions:
            it.uses_globals = it.uses_globals or any(other.uses_globals for other in below[it])
        freed = {it: set.union(it.frees, *(other.frees for other in below[it])) for it in functions}
        for it in functions:
            it.kept = [
                variable
                for caller in functions
                if caller is not it and it in below[caller]
                for variable in caller.locals
                if variable.addressed and isinstance(variable.kind, StructValue) and variable.kind.tag in freed[it]
            ]


def find_facts(program, log, path):
    """Fills in the facts of a program."""
    return Facts(program, log, path).find()

"""From pycparser's tree to a Program: structs, variables, functions, and which name means what."""

from pycparser import c_ast

from . import constants
from .declarations import Declarations
from .kinds import BROKEN, INT, Array
from .messages import Stop
from .model import Function, Program, Variable
from .reading import place_of

SHAPES = ("assume_shape", "assert_shape")


class Collector:
    """Walks a translation unit once, with the scopes of C."""

    def __init__(self, log, path):
        self.program = Program()
        self.log = log
        self.path = path
        self.declarations = Declarations(self.program, log, path)
        self.scopes = [{}]
        self.function = None

    def place(self, node):
        return place_of(node, self.path)

    def unit(self, tree):
        for node in tree.ext:
            try:
                self.external(node)
            except Stop:
                pass
        self.program.constants = self.declarations.constants
        return self.program

    def external(self, node):
        if isinstance(node, c_ast.Typedef):
            self.declarations.typedef(node)
        elif isinstance(node, c_ast.FuncDef):
            self.define(node)
        elif isinstance(node, c_ast.Decl):
            if isinstance(node.type, c_ast.FuncDecl):
                self.program.prototypes[node.name] = self.signature(node)
            else:
                self.declare(node)

    # Functions

    def signature(self, node):
        return self.declarations.kind(node.type.type)

    def define(self, node):
        decl = node.decl
        place = self.place(decl)
        if node.param_decls:
            self.log.refuse(
                place,
                f"function '{decl.name}'",
                "its parameters are declared in the old way",
                "declare them in the brackets",
            )
        function = Function(decl.name, self.signature(decl), [], node, place, "static" in decl.storage)
        self.program.functions[decl.name] = function
        self.function = function
        known = set(self.program.structures)
        self.scopes.append({})
        for it in decl.type.args.params if decl.type.args else []:
            self.parameter(function, it)
        self.statement(node.body, own_scope=False)
        self.scopes.pop()
        self.function = None
        for tag, it in self.program.structures.items():
            if tag not in known:  # a struct of the function's own is defined before it
                it.place = place

    def parameter(self, function, node):
        if isinstance(node, c_ast.EllipsisParam):
            self.broken(node, f"function '{function.name}'", "it takes any number of arguments", "give it parameters")
            return
        if isinstance(node, c_ast.Typename) and isinstance(node.type, c_ast.TypeDecl):
            if getattr(node.type.type, "names", None) == ["void"]:
                return
        kind = self.declarations.kind(node)
        if isinstance(kind, Array):
            kind = self.decayed(node, kind)
        name = node.name or "unnamed"
        made = Variable(name, kind, self.place(node), function, is_parameter=True)
        function.parameters.append(made)
        function.locals.append(made)
        self.scopes[-1][name] = made

    def decayed(self, node, kind):
        if self.function and self.function.name == "main":
            return BROKEN
        return self.broken(
            node,
            f"parameter of type '{kind}'",
            "an array that is handed over is not followed",
            "hand over a list, or its numbers",
        )

    def broken(self, node, construct, reason, instead):
        try:
            self.log.refuse(self.place(node), construct, reason, instead)
        except Stop:
            pass
        return BROKEN

    # Variables

    def declare(self, node):
        """A variable, global or local, or only a struct or an enumeration."""
        if isinstance(node.type, (c_ast.Struct, c_ast.Union, c_ast.Enum)):
            self.declarations.kind(node.type)
            return
        kind = self.declarations.kind(node, node.name)
        if self.is_constant(node, kind):
            self.scopes[-1][node.name] = self.declarations.constant(node.init)
            return
        is_global = self.function is None or "static" in node.storage
        made = Variable(
            node.name, self.sized(kind, node.init), self.place(node), self.function, is_global, initial=node.init
        )
        made.extern = "extern" in node.storage
        if is_global:
            known = self.scopes[0].get(node.name) if self.function is None else None
            if isinstance(known, Variable):
                known.initial, known.extern = known.initial or node.init, known.extern and made.extern
                made = known
            elif not made.extern or self.path == made.place.file:
                self.program.globals.append(made)
        elif self.function:
            self.function.locals.append(made)
        self.scopes[-1][node.name] = made
        self.program.resolved[id(node)] = made
        if node.init is not None:
            self.expression(node.init)

    def is_constant(self, node, kind):
        """Whether a variable is an int that never changes, as `static const int limit = 10;`."""
        is_const = "const" in (node.quals or []) and kind == INT and "extern" not in node.storage
        return is_const and node.init is not None and self.declarations.constant(node.init) is not None

    def sized(self, kind, initial):
        if isinstance(kind, Array) and kind.length is None and isinstance(initial, c_ast.InitList):
            return Array(kind.element, len(initial.exprs))
        if isinstance(kind, Array) and kind.length is None and isinstance(initial, c_ast.Constant):
            return Array(kind.element, len(initial.value) - 1)
        return kind

    # Bodies

    def statement(self, node, own_scope=True):
        if node is None:
            return
        if isinstance(node, c_ast.Compound):
            self.compound(node, own_scope)
        elif isinstance(node, c_ast.For):
            self.scopes.append({})
            for it in (node.init, node.cond, node.next, node.stmt):
                self.statement(it)
            self.scopes.pop()
        elif isinstance(node, c_ast.DeclList):
            for it in node.decls:
                self.declare(it)
        elif isinstance(node, c_ast.Decl):
            if isinstance(node.type, c_ast.FuncDecl):
                self.program.prototypes[node.name] = self.signature(node)
            else:
                self.declare(node)
        elif isinstance(node, c_ast.Typedef):
            self.declarations.typedef(node)
        elif isinstance(node, (c_ast.Case, c_ast.Default)):
            for it in [getattr(node, "expr", None), *(node.stmts or [])]:
                self.statement(it)
        else:
            self.expression(node)

    def compound(self, node, own_scope):
        if own_scope:
            self.scopes.append({})
        for it in node.block_items or []:
            try:
                self.statement(it)
            except Stop:
                pass
        if own_scope:
            self.scopes.pop()

    def expression(self, node):
        """Resolves the names of an expression, or of a statement that holds expressions."""
        if isinstance(node, c_ast.ID):
            self.resolve(node)
        elif isinstance(node, c_ast.StructRef):
            self.expression(node.name)
        elif isinstance(node, c_ast.FuncCall):
            self.call(node)
        elif isinstance(node, (c_ast.Cast, c_ast.CompoundLiteral)):
            self.program.resolved[id(node)] = self.declarations.kind(getattr(node, "to_type", None) or node.type)
            self.expression(getattr(node, "expr", None) or node.init)
        elif isinstance(node, c_ast.Typename):
            self.program.resolved[id(node)] = self.declarations.kind(node)
        elif isinstance(node, c_ast.NamedInitializer):
            self.expression(node.expr)
        elif isinstance(node, (c_ast.Compound, c_ast.For, c_ast.Decl, c_ast.DeclList, c_ast.Case, c_ast.Default)):
            self.statement(node)
        elif node is not None:
            for _, it in node.children():
                self.expression(it)

    def resolve(self, node):
        for scope in reversed(self.scopes):
            if node.name in scope:
                found = scope[node.name]
                self.program.resolved[id(node)] = found
                if self.function and not isinstance(found, int) and found in self.program.globals:
                    self.function.uses_globals = True
                return
        if node.name in self.declarations.constants:
            self.program.resolved[id(node)] = self.declarations.constants[node.name]

    def call(self, node):
        arguments = list(node.args.exprs) if node.args else []
        if isinstance(node.name, c_ast.ID):
            if node.name.name in SHAPES and arguments:
                arguments = arguments[1:]
            elif any(node.name.name in scope for scope in self.scopes):
                self.resolve(node.name)
            if self.function:
                self.function.calls.add(node.name.name)
        else:
            self.expression(node.name)
        for it in arguments:
            self.expression(it)


def collect(tree, log, path):
    """The program that a tree holds."""
    return Collector(log, path).unit(tree)


def enumerator(program, node):
    """The value of a name that is an enumerator, else None."""
    found = program.resolved.get(id(node))
    return found if isinstance(found, int) else None


def constant(program, node):
    """The value of a constant expression of ints, else None."""
    return constants.of_node(node, lambda it: enumerator(program, it))

"""One function: its head, its parameters, its body."""

from pycparser import c_ast

from .kinds import BROKEN, PlacePointer, Pointer, StructValue, spelled
from .messages import Stop
from .names import fresh
from .statements import Statements
from .structs import declared, parts


class FunctionWriter(Statements):
    """Lowers a function to fragments."""

    def lower(self, function, is_entry, has_globals, before=()):
        """All fragments of a function; `before` writes what an entry does first."""
        self.function = function
        self.is_entry, self.has_globals = is_entry, has_globals
        self.taken = {"globals"}
        body = function.node.body
        items = body.block_items or []
        self.tails = self.find_tails(items)
        with self.at(function.place):
            blocks = self.head(function, is_entry)
            with self.scope() as scope:
                for write in before:
                    write(self)
                self.block_parameters(blocks, scope)
                if self.uses_goto(body):
                    self.hoist(items)
                self.items(items)
                if not is_entry:
                    self.free_blocks([scope])
            self.emit("}")
        return self.fragments

    def head(self, function, is_entry):
        """Writes the head; gives the parameters that are blocks, by the names that they come under."""
        texts = [] if is_entry or not function.uses_globals else ["struct memcad_globals *globals"]
        texts += [] if is_entry else self.kept_parameters(function)
        blocks = []
        for it in function.parameters:
            if is_entry:
                self.entry_parameter(it)
                continue
            texts += self.parameter(it, blocks)
        self.emit(f"{self.result_text(function)}{function.text}({', '.join(texts)}) {{")
        return blocks

    def entry_parameter(self, variable):
        """The arguments of `main`: their number is any; the texts are not followed."""
        if variable.kind == BROKEN or isinstance(variable.kind, PlacePointer):
            variable.kind = BROKEN
        else:
            self.name(variable)

    def result_text(self, function):
        kind = function.result
        if str(kind) == "void":
            return "void "
        if isinstance(kind, PlacePointer):
            representation = self.program.representation(kind)
            return "int " if representation == BROKEN else spelled(Pointer(representation.tag))
        return spelled(kind)

    def kept_parameters(self, function):
        return [f"struct {it.kind.tag} *memcad_kept_{i}" for i, it in enumerate(function.kept)]

    def parameter(self, variable, blocks):
        if variable.kind == BROKEN:
            return [f"int {self.name(variable)}"]
        if isinstance(variable.kind, StructValue):
            self.refuse_parameter(variable)
            return [f"int {self.name(variable)}"]
        self.name(variable)
        if variable.addressed:
            text = fresh(f"{variable.name}_given", self.taken)
            blocks.append((variable, text))
            return [declared(text, variable.kind)]
        return [declared(text, kind) for text, kind in parts(self.program, variable.text, variable.kind)]

    def refuse_parameter(self, variable):
        try:
            self.refuse(
                variable.place,
                f"parameter '{variable.name}'",
                "a whole struct is handed over",
                "hand over a pointer to it",
            )
        except Stop:
            pass

    def block_parameters(self, blocks, scope):
        """Parameters whose address is taken live in blocks."""
        for variable, text in blocks:
            try:
                self.make_block(variable, variable.text)
                scope.blocks.append(variable)
                place = self.place_of_variable(variable, variable.place)
                self.emit(f"{place.text} = {text};", simple=True)
            except Stop:
                pass
        for it in self.function.parameters:
            if self.is_entry and it.text:
                self.emit(f"int {it.text} = input();", meaning="argc")

    def hoist(self, items):
        """Declares the variables of the function's own block first, so that a `goto` may pass them."""
        for it in items:
            while isinstance(it, c_ast.Label):
                it = it.stmt
            for node in it.decls if isinstance(it, c_ast.DeclList) else [it]:
                variable = self.program.resolved.get(id(node)) if isinstance(node, c_ast.Decl) else None
                if variable is None or variable.is_global or variable.is_block:
                    continue
                self.hoist_one(variable)

    def hoist_one(self, variable):
        try:
            self.check_kind(variable.kind, variable.name, variable.place)
            self.name(variable)
            self.hoisted.add(variable)
            for text, kind in parts(self.program, variable.text, variable.kind):
                self.emit(declared(text, kind) + ";")
        except Stop:
            pass

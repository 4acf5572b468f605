"""Types and structs, from the declarations of pycparser's tree."""

from pycparser import c_ast

from . import constants
from .kinds import (
    BOOL,
    BROKEN,
    INT,
    STREAM,
    TEXT,
    VOID,
    VOID_POINTER,
    Array,
    Enumeration,
    Opaque,
    PlacePointer,
    Pointer,
    StructValue,
    is_number,
)
from .messages import Stop
from .model import Field, Structure
from .names import allowed
from .reading import place_of

EXACT = {("int",), ("signed",), ("int", "signed")}
SCALARS = {"char", "short", "int", "long", "signed", "unsigned", "float", "double", "_Complex", "__int128"}


class Declarations:
    """Reads types; keeps typedefs, structs and enumerators as they come."""

    def __init__(self, program, log, path):
        self.program = program
        self.log = log
        self.path = path
        self.typedefs = {}
        self.constants = {}

    def place(self, node):
        return place_of(node, self.path)

    def constant(self, node):
        def lookup(it):
            return self.constants.get(it.name)

        return constants.of_node(node, lookup)

    # Types

    def kind(self, node, name=None):
        """The kind of a declarator's type; what has no translation is listed, and is BROKEN."""
        if isinstance(node, (c_ast.Typename, c_ast.Decl)):
            return self.kind(node.type, name)
        if isinstance(node, c_ast.TypeDecl):
            kind = self.kind(node.type, name)
            return Opaque(f"volatile {kind}") if "volatile" in (node.quals or []) and is_number(kind) else kind
        if isinstance(node, c_ast.IdentifierType):
            return self.of_words(node)
        if isinstance(node, c_ast.Struct):
            return StructValue(self.struct(node, name))
        if isinstance(node, c_ast.Enum):
            return self.enumeration(node)
        if isinstance(node, c_ast.PtrDecl):
            return self.pointer(node)
        if isinstance(node, c_ast.ArrayDecl):
            length = self.constant(node.dim) if node.dim is not None else None
            return Array(self.kind(node.type), length)
        if isinstance(node, c_ast.Union):
            return self.broken(node, "union", "its fields share their memory", "use a struct with a field for each")
        return self.broken(node, "type", "it has no translation", "use int, pointers to structs and structs")

    def broken(self, node, construct, reason, instead):
        try:
            self.log.refuse(self.place(node), construct, reason, instead)
        except Stop:
            pass
        return BROKEN

    def of_words(self, node):
        words = list(node.names)
        if len(words) == 1 and words[0] in self.typedefs:
            return self.typedefs[words[0]]
        if words == ["void"]:
            return VOID
        if words == ["_Bool"]:
            return BOOL
        if tuple(sorted(words)) in EXACT:
            return INT
        if set(words) <= SCALARS:
            return Opaque(" ".join(words))
        return self.broken(node, f"type '{' '.join(words)}'", "it is not known", "declare it, or include its header")

    def pointer(self, node):
        inner = node.type
        if isinstance(inner, c_ast.FuncDecl):
            return self.broken(
                node, "pointer to a function", "a call through it may go anywhere", "call the function by its name"
            )
        kind = self.kind(inner)
        if kind == BROKEN:
            return BROKEN
        if isinstance(kind, StructValue):
            return STREAM if kind.tag == "memcad_file" else Pointer(kind.tag)
        if kind == VOID:
            return VOID_POINTER
        if isinstance(kind, Opaque) and kind.name in ("char", "signed char", "unsigned char"):
            return TEXT
        if isinstance(kind, (PlacePointer, Array)):
            return self.broken(
                node,
                f"type '{kind} *'",
                "only pointers to variables and fields are followed",
                "return the value, or use a struct",
            )
        if kind == VOID_POINTER or kind == STREAM:
            return self.broken(node, f"type '{kind}*'", "what it points to has no type", "use a pointer to a struct")
        return PlacePointer(kind)

    # Structs and enumerations

    def struct(self, node, name=None):
        tag = node.name
        if tag is None:
            coord = node.coord
            tag = self.anonymous(name or f"anonymous_{coord.line}_{coord.column}", node)
        tag = allowed(tag) if tag != "memcad_file" else tag
        made = self.program.structures.setdefault(tag, Structure(tag, self.place(node)))
        if node.decls is not None and not made.complete:
            made.complete = True
            made.place = self.place(node)
            for it in node.decls:
                self.add_field(made, it)
        return tag

    def anonymous(self, name, node):
        """A tag for a struct without one, that no other struct has."""
        key = f"{name}@{node.coord.file}:{node.coord.line}:{node.coord.column}"
        known = self.program.statics.setdefault("tags", {})
        if key not in known:
            tag = name
            while tag in self.program.structures or tag in known.values():
                tag += "_"
            known[key] = tag
        return known[key]

    def add_field(self, made, node):
        if isinstance(node, (c_ast.Pragma, c_ast.StaticAssert)):
            return
        kind = self.kind(node, f"{made.tag}_{node.name}" if node.name else None)
        if isinstance(kind, Array) and kind.length is None:
            kind = self.broken(
                node,
                f"array '{node.name}'",
                "its number of elements is not known",
                "use a list, or a struct with a field for each",
            )
        if node.bitsize is not None:
            kind = Opaque(f"{kind} of some bits")
        if node.name is None:
            if isinstance(kind, StructValue):
                made.fields.extend(self.program.structures[kind.tag].fields)
            return
        made.fields.append(Field(node.name, kind, self.place(node)))

    def enumeration(self, node):
        value = 0
        for it in node.values.enumerators if node.values else []:
            if it.value is not None:
                value = self.constant(it.value)
            self.constants[it.name] = value
            value = None if value is None else value + 1
        return Enumeration(node.name or "without a name")

    def typedef(self, node):
        """A typedef; one whose kind is broken is refused where it is used."""
        if isinstance(node.type, c_ast.PtrDecl) and isinstance(node.type.type, c_ast.FuncDecl):
            self.typedefs[node.name] = BROKEN
            self.pointer(node.type)
        elif isinstance(node.type, c_ast.FuncDecl):
            self.typedefs[node.name] = BROKEN
        else:
            self.typedefs[node.name] = self.kind(node.type, node.name)

"""A whole program: globals, structs, functions and the entry, each at its line."""

from dataclasses import dataclass, field


from .collect import collect
from .expression_kinds import ExpressionKinds
from .facts import find_facts
from .functions import FunctionWriter
from .harness import write_harness
from .kinds import BROKEN
from .messages import Log, Place, Stop
from .names import ENTRY, allowed, fresh
from .output import Fragment, Origin, Text
from .reading import read
from .structs import declared, definition, is_scalar_array, leaves, parts, slot
from .values import Direct, Slots, Whole


@dataclass
class Translation:
    """A program of memcad, with the origin of each piece of its text."""

    text: object
    entry: str
    program: object
    log: object
    source: str
    path: str
    shapes: list = field(default_factory=list)
    functions: int = 0


class Translator:
    """Translates one file."""

    def __init__(self, path, source, tree):
        self.path = path
        self.source = source
        self.log = Log()
        self.program = collect(tree, self.log, path)
        find_facts(self.program, self.log, path)
        self.kinds = ExpressionKinds(self.program)
        self.name_all()

    # Names

    def name_all(self):
        taken = set()
        for it in self.program.functions.values():
            it.text = "main" if it.name == "main" else fresh(it.name, taken)
        taken = set()
        for it in self.program.globals:
            if it.kind != BROKEN:
                name = f"{it.function.name}_{it.name}" if it.function else it.name
                it.text = fresh(allowed(name), taken)

    @property
    def stored_globals(self):
        return [it for it in self.program.globals if it.text]

    # Items of the text

    def writer(self):
        return FunctionWriter(self.program, self.log, self.path, self.kinds)

    def structures(self):
        """Each struct's definition, at its place."""
        for tag, it in self.program.structures.items():
            if it.complete and not tag == "memcad_file":
                place = it.place if it.place and not it.added else Place(self.path, 1)
                yield place, [Fragment(definition(self.program, tag), Origin(place))]
        if self.has_globals:
            yield Place(self.path, 1), [Fragment(self.globals_text(), Origin(Place(self.path, 1)))]

    @property
    def has_globals(self):
        return bool(self.stored_globals) and any(it.uses_globals for it in self.program.functions.values())

    def globals_text(self):
        fields = []
        for it in self.stored_globals:
            if it.is_block:
                tag, _ = self.writer().block_tag(it)
                fields.append(f"struct {tag} *{it.text};")
            else:
                fields += [declared(text, kind) + ";" for text, kind in self.parts_of(it)]
        return f"struct memcad_globals {{ {' '.join(fields)} }};"

    def parts_of(self, variable):
        if is_scalar_array(variable.kind):
            return []
        if hasattr(variable.kind, "length"):
            return [(slot(variable.text, i), variable.kind.element) for i in range(variable.kind.length or 0)]
        return parts(self.program, variable.text, variable.kind)

    def make_globals(self, writer):
        """What the entry does first: the globals get their block and their first values."""
        if not self.has_globals:
            return
        writer.emit("struct memcad_globals *globals = /* variable */ malloc(sizeof(struct memcad_globals));")
        writer.emit("assume(globals != NULL);")
        for it in self.stored_globals:
            with writer.at(it.place):
                try:
                    self.make_global(writer, it)
                except Stop:
                    writer.accesses = []

    def make_global(self, writer, variable):
        writer.check_kind(variable.kind, variable.name, variable.place)
        if variable.is_block:
            writer.make_block(variable, f"globals->{variable.text}", first=False)
        place = writer.place_of_variable(variable, variable.place)
        if variable.initial is not None:
            writer.in_braces(lambda: writer.fill(place, variable.initial))
        else:
            self.zero_global(writer, place, variable)

    def zero_global(self, writer, place, variable):
        if isinstance(place, Whole):
            for it in leaves(self.program, place.tag):
                writer.zero_leaf(place.text, it)
        elif isinstance(place, Direct):
            writer.write_direct(place, writer.zero(variable.kind))
        elif isinstance(place, Slots):
            for text in place.texts:
                writer.emit(f"{text} = NULL;", simple=True)

    # The whole

    def translate(self, harness=None):
        """The text; `harness` is the function that is called in place of `main`."""
        items = list(self.structures())
        for it in self.program.functions.values():
            if it.name in self.program.allocators:
                continue
            is_entry = (
                it.name == "main"
                and harness is None
                and not any(it in f.below for f in self.program.functions.values())
            )
            before = [self.make_globals] if is_entry else []
            if it.name == "main" and not is_entry:
                it.text = "memcad_main"
            items.append((it.place, self.writer().lower(it, is_entry, self.has_globals, before)))
        own = [it for it in items if it[0].file == self.path]
        others = [it for it in items if it[0].file != self.path]
        text = Text(self.path)
        for _, fragments in others + sorted(own, key=lambda it: it[0].line):
            for it in fragments:
                text.add(it)
        shapes = []
        if harness is not None:
            shapes = self.add_harness(text, self.program.functions[harness])
        entry = ENTRY if harness is not None else "main"
        made = Translation(text, entry, self.program, self.log, self.source, self.path, shapes)
        made.functions = len(self.program.functions)
        return made

    def add_harness(self, text, function):
        fragments, shapes = write_harness(self, function)
        for it in fragments:
            text.add(it)
        return shapes


def translator(path, includes=(), defines=()):
    """Reads a file, and makes ready to translate it."""
    source, tree = read(path, includes, defines)
    return Translator(path, source, tree)

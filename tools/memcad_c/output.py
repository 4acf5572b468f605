"""The translated text: fragments, each at the line of what it comes from."""

import re
from bisect import bisect_right
from dataclasses import dataclass, field

from .messages import Place


@dataclass
class Access:
    """A pointer that is followed: its text in the translation, as the user wrote it, and where."""

    text: str
    shown: str
    place: Place
    tag: str = ""


@dataclass
class Origin:
    """Where a fragment comes from, what it accesses, and what it means if it is an assertion of our own."""

    place: Place
    function: str = ""
    accesses: list = field(default_factory=list)
    meaning: str = ""
    subject: str = ""
    reads: list = field(default_factory=list)


@dataclass
class Fragment:
    """A piece of text that stays on one line."""

    text: str
    origin: Origin
    simple: bool = False
    ends: bool = False
    floating: bool = False  # written once more, and not at its own line


class Text:
    """Lines of translated text, and the origin of each piece."""

    def __init__(self, path):
        self.path = path
        self.lines = [""]
        self.starts = []
        self.origins = []
        self.fragments = []

    def add(self, fragment):
        self.fragments.append(fragment)
        place = fragment.origin.place
        if place.file == self.path and place.line > len(self.lines) and not fragment.floating:
            self.lines += [""] * (place.line - len(self.lines))
        line = self.lines[-1]
        if not line and place.file == self.path and place.line == len(self.lines):
            line = " " * (place.column - 1)
        elif line:
            line += " "
        self.starts.append((len(self.lines), len(line) + 1))
        self.origins.append(fragment.origin)
        self.lines[-1] = line + fragment.text

    def executable(self):
        """The same text for a C compiler: variables that are blocks are no allocations of the program's,
        a number that is not followed is what it really is, and assertions of our own say what they mean."""
        made = Text(self.path)
        for it in self.fragments:
            made.add(Fragment(as_c(it), it.origin, floating=it.floating))
        return made.text()

    def text(self):
        return "\n".join(self.lines) + "\n"

    def at(self, line, column):
        """The number of the fragment at a place of the translated program, or -1."""
        return bisect_right(self.starts, (line, column)) - 1

    def origin(self, line, column):
        """The origin of the text at a place of the translated program."""
        at = self.at(line, column)
        return self.origins[at] if at >= 0 else None

    def with_probes(self, number, probes):
        """The text with statements before a fragment, each of which accesses one pointer; and the places of these.

        The test of a loop is probed at each turn.
        """
        made, places = Text(self.path), []
        for i, it in enumerate(self.fragments):
            if i != number:
                made.add(it)
                continue
            head, tail = split_loop(it.text)
            if head:
                made.add(Fragment(head, it.origin, floating=it.floating))
            for probe in probes:
                made.add(Fragment(probe, it.origin, floating=it.floating))
                places.append(made.starts[-1])
            made.add(Fragment(tail, it.origin, floating=it.floating))
        return made, places


def split_loop(text):
    """A loop's head without its test, and the test as a statement; of other texts nothing, and the text."""
    found = re.fullmatch(r"while \((.*)\) \{", text)
    if found:
        return "while (1) {", f"if (!({found[1]})) break;"
    found = re.fullmatch(r"for \(; (.*); (.*)\) \{", text)
    if found:
        return f"for (; ; {found[2]}) {{", f"if (!({found[1]})) break;"
    return "", text


def as_c(fragment):
    text = re.sub(r"/\* variable \*/ malloc\(", "memcad_block(", fragment.text)
    text = re.sub(r"free\(([\w>-]+)\) /\* variable \*/", r"memcad_unblock(\1)", text)
    text = re.sub(r"input\(\) /\* = (.*?) \*/", r"(\1)", text)
    if fragment.origin.meaning == "argc":
        return text.replace("input()", "0")
    if fragment.origin.meaning in ("null", "bounds", "division", "overflow", "badfree"):
        text = text.replace("assert(", f"memcad_assert_{fragment.origin.meaning}(")
    return text

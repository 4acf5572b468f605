"""Places in the user's files, and what is said of them."""

from dataclasses import dataclass, field


@dataclass(frozen=True, order=True)
class Place:
    """A file, a line and a column, both counted from 1."""

    file: str
    line: int
    column: int = 1

    def short(self):
        return f"{self.line}:{self.column}"

    def __str__(self):
        return f"{self.file}:{self.line}:{self.column}"


@dataclass(frozen=True, order=True)
class Refusal:
    """A construct that has no translation: what it is, why, and what to write instead."""

    place: Place
    construct: str
    reason: str
    instead: str

    def text(self):
        return f"{self.place}: error: {self.construct}: {self.reason}; {self.instead} [not-translated]"


@dataclass(frozen=True, order=True)
class Note:
    """Something that the translation gives up, and that the user may want to know."""

    place: Place
    message: str

    def text(self):
        return f"{self.place}: note: {self.message}"


class Stop(Exception):
    """Raised after a refusal has been listed, to leave the statement it stands in."""


@dataclass
class Log:
    """All refusals and notes of one translation, each once."""

    refusals: list = field(default_factory=list)
    notes: list = field(default_factory=list)

    def refuse(self, place, construct, reason, instead):
        refusal = Refusal(place, construct, reason, instead)
        if refusal not in self.refusals:
            self.refusals.append(refusal)
        raise Stop()

    def note(self, place, message):
        note = Note(place, message)
        if note not in self.notes:
            self.notes.append(note)

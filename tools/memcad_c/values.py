"""What expressions and places become while a function is translated."""

from dataclasses import dataclass

from . import constants
from .kinds import INT, Opaque


@dataclass
class Value:
    """An expression of the translated language that has no side effects.

    `stable` says that the text means the same after any later statement; `touches` are the texts
    that an arbitrary number has to read, so that what is undefined or null is still found; `more` are
    the further parts of a place pointer.
    """

    text: str
    kind: object
    constant: object = None
    stable: bool = False
    touches: tuple = ()
    more: tuple = ()
    is_path: bool = False
    is_truth: bool = False


def number(value, kind=INT):
    """A known number."""
    return Value(constants.spelled(value), kind, constant=value, stable=True, is_truth=value in (0, 1))


def null(kind, more=()):
    """The null pointer of a kind."""
    return Value("NULL", kind, constant=0, stable=True, more=more)


def arbitrary(kind, touches=()):
    """Any number, after the given texts are read."""
    text = "(" + " + ".join([*touches, "input()"]) + ")" if touches else "input()"
    return Value(text, kind, touches=tuple(touches))


def touches_of(value):
    """The texts that have to be read where only the value of a number is dropped."""
    if value.constant is not None:
        return ()
    return value.touches if isinstance(value.kind, Opaque) or value.touches else (value.text,)


@dataclass
class Direct:
    """A variable or field, by its text, and by those of its further parts."""

    text: str
    kind: object
    more: tuple = ()
    variable: object = None
    stored: bool = True


@dataclass
class Chosen:
    """What a place pointer points to, where it may be one of several fields."""

    texts: list
    choice: str
    kind: object


@dataclass
class Slots:
    """An element of a short array of pointers, which is a variable or field for each."""

    texts: list
    index: Value
    kind: object


@dataclass
class Element:
    """An element of an array of numbers, of which only the memory is followed."""

    kind: object
    touch: str = ""


@dataclass
class Whole:
    """A struct: the pointer to its block, and the path to it where it is nested."""

    text: str
    tag: str
    path: tuple = ()

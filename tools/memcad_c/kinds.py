"""The types that the translation tells apart.

`int`, `_Bool` and enumerations are kept as they are.  Of other scalars ('opaque') only whether they
hold anything is kept: each read gives an arbitrary number.  Of a `char *` ('text') it is kept
whether it is null, and every other text is a string literal.  A pointer to a scalar or to a pointer
is a 'place': the address of a variable or of a field.
"""

from dataclasses import dataclass


@dataclass(frozen=True)
class Kind:
    """A type that needs no further words."""

    name: str

    def __str__(self):
        return self.name


INT = Kind("int")
BOOL = Kind("_Bool")
TEXT = Kind("char *")
VOID = Kind("void")
VOID_POINTER = Kind("void *")
STREAM = Kind("FILE *")
BROKEN = Kind("a type that is not translated")


@dataclass(frozen=True)
class Enumeration:
    """An enumeration; its objects are compared by == and !=, and else as unsigned numbers."""

    name: str

    def __str__(self):
        return f"enum {self.name}"


@dataclass(frozen=True)
class Opaque:
    """A scalar type whose values are not followed."""

    name: str

    def __str__(self):
        return self.name


@dataclass(frozen=True)
class Pointer:
    """A pointer to a struct, by the tag that it has in the translated text."""

    tag: str

    def __str__(self):
        return f"struct {self.tag} *"


@dataclass(frozen=True)
class PlacePointer:
    """The address of a variable or field of the target type."""

    target: object

    def __str__(self):
        return f"{self.target}*" if str(self.target).endswith("*") else f"{self.target} *"


@dataclass(frozen=True)
class StructValue:
    """A struct that is a variable or field itself."""

    tag: str

    def __str__(self):
        return f"struct {self.tag}"


@dataclass(frozen=True)
class Array:
    """An array with a constant number of elements, or None where the number is not known."""

    element: object
    length: object

    def __str__(self):
        return f"{self.element} [{'' if self.length is None else self.length}]"


def is_exact_number(kind):
    return kind in (INT, BOOL) or isinstance(kind, Enumeration)


def is_number(kind):
    return is_exact_number(kind) or isinstance(kind, Opaque)


def is_address(kind):
    return kind in (TEXT, VOID_POINTER) or isinstance(kind, (Pointer, PlacePointer))


def spelled(kind):
    """How a variable or field of this kind is declared in the translated text, before its name."""
    if isinstance(kind, Pointer):
        return f"struct {kind.tag} *"
    return "int "

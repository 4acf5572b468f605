"""Reading a C file: the system's preprocessor, then pycparser."""

import os
import re
import subprocess

from pycparser import c_parser

from .messages import Place

TOOLS = os.path.dirname(os.path.dirname(os.path.realpath(__file__)))
INCLUDE = os.path.join(TOOLS, "include")

# What compilers allow beyond C11 and what says nothing of what a program does.
IGNORED_WORDS = [
    "-D__attribute__(x)=",
    "-D__extension__=",
    "-D__restrict=",
    "-D__inline=inline",
    "-D__const=const",
    "-Drestrict=",
    "-D__builtin_expect(x,y)=(x)",
    "-D__builtin_unreachable()=assert(0)",
]


class ReadingFault(Exception):
    """The file is no C text: a place and a message."""

    def __init__(self, place, message):
        super().__init__(message)
        self.place = place
        self.message = message


def preprocess(path, includes=(), defines=()):
    """The text after the preprocessor, with its own headers for the standard library."""
    folder = os.path.dirname(os.path.abspath(path))
    words = ["gcc", "-E", "-std=gnu11", "-nostdinc", "-undef", "-D__MEMCAD_C__", *IGNORED_WORDS]
    words += ["-iquote", INCLUDE, "-iquote", folder]
    for it in includes:
        words += ["-iquote", os.path.abspath(it), "-I", os.path.abspath(it)]
    words += ["-I", INCLUDE, "-I", os.path.join(INCLUDE, "libc"), "-I", folder]
    words += [f"-D{it}" for it in defines] + ["-"]
    with open(path, encoding="utf-8", errors="replace") as file:
        text = file.read()
    # Read from standard input, so that "memcad.h" is the one beside this tool.
    given = f'# 1 "{path}"\n{text}'
    ran = subprocess.run(words, input=given, capture_output=True, text=True, cwd=INCLUDE, check=False)
    if ran.returncode:
        raise fault_of_preprocessor(path, ran.stderr)
    return text, ran.stdout


def fault_of_preprocessor(path, said):
    found = re.search(
        r"^(?P<file>[^\n:]+):(?P<line>\d+):(?:(?P<column>\d+):)? (?:fatal )?error: (?P<what>.*)$", said, re.M
    )
    if not found:
        return ReadingFault(Place(path, 1), said.strip().split("\n")[-1] or "the preprocessor failed")
    place = Place(found["file"], int(found["line"]), int(found["column"] or 1))
    return ReadingFault(place, found["what"])


def parse(path, preprocessed):
    """The tree of pycparser."""
    try:
        return c_parser.CParser().parse(preprocessed, path)
    except Exception as error:  # pycparser raises ParseError, whose name moved between its versions
        if type(error).__name__ != "ParseError":
            raise
        found = re.match(r"(?P<file>.*?):(?P<line>\d+)(?::(?P<column>\d+))?: ?(?P<what>.*)", str(error), re.S)
        if not found:
            raise ReadingFault(Place(path, 1), str(error)) from error
        place = Place(found["file"], int(found["line"]), int(found["column"] or 1))
        raise ReadingFault(place, f"not read as C: {found['what']}") from error


def read(path, includes=(), defines=()):
    """The user's text, and its tree."""
    text, preprocessed = preprocess(path, includes, defines)
    return text, parse(path, preprocessed)


def place_of(node, path=""):
    """The place of a tree's node."""
    coord = getattr(node, "coord", None)
    if coord is None:
        return Place(path, 1)
    return Place(coord.file or path, coord.line or 1, coord.column or 1)

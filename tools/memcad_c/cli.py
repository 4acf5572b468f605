"""The command `memcad-c`."""

import argparse
import json
import os
import sys

from .analysis import Options, analyse_file
from .engine import find_memcad
from .harness import HarnessFault
from .reading import ReadingFault
from .sarif import sarif

PROVED, FOUND, FAILED = 0, 1, 2


def parser():
    made = argparse.ArgumentParser(
        prog="memcad-c",
        description="Looks for null, freed and uninitialised pointers in C, or proves that there are none.",
    )
    made.add_argument("file", help="a C file")
    made.add_argument(
        "--definitions",
        "-d",
        metavar="FILE",
        help="what lists and trees are; proposed from the structs where it is not given",
    )
    made.add_argument(
        "--harness",
        metavar="F",
        help="analyses the function F by itself, called with arguments of the shape of their types",
    )
    made.add_argument(
        "--html", metavar="FILE", help="writes a page with the source, invariants, alarms and pictures of states"
    )
    made.add_argument("--sarif", metavar="FILE", help="writes the diagnostics as SARIF 2.1.0")
    made.add_argument(
        "--emit",
        metavar="FOLDER",
        help="writes the translated program, the definitions, the certificate and the script",
    )
    made.add_argument(
        "--memcad", metavar="PROGRAM", help="the program memcad (else MEMCAD in the environment, or this repository's)"
    )
    made.add_argument(
        "-I", dest="includes", action="append", default=[], metavar="FOLDER", help="where headers are looked for"
    )
    made.add_argument("-D", dest="defines", action="append", default=[], metavar="NAME", help="defines a macro")
    made.add_argument(
        "--seconds",
        type=float,
        default=4,
        metavar="N",
        help="how long a run that goes wrong is looked for, where nothing is proved (4)",
    )
    made.add_argument("--quiet", "-q", action="store_true", help="prints no notes")
    return made


def main(words=None):
    """Runs the command; gives its exit status."""
    given = parser().parse_args(words)
    memcad = find_memcad(given.memcad)
    options = Options(
        given.file, memcad or "", given.harness, None, tuple(given.includes), tuple(given.defines), given.seconds
    )
    try:
        if given.definitions:
            with open(given.definitions, encoding="utf-8") as file:
                options.definitions = file.read()
        if memcad is None:
            print("memcad-c: error: no program memcad: set MEMCAD, or build it with 'rt ci'", file=sys.stderr)
            return FAILED
        results = analyse_file(options)
    except ReadingFault as fault:
        print(f"{fault.place}: error: {fault.message}")
        return FAILED
    except (HarnessFault, OSError) as fault:
        print(f"memcad-c: error: {fault}", file=sys.stderr)
        return FAILED
    if not results:
        print(f"{os.path.basename(given.file)}: no function to analyse")
    status = max((say(it, given) for it in results), default=FAILED)
    write_files(results, given)
    return status


def say(result, given):
    """Prints what is said of one entry; gives its exit status."""
    log, name = result.translation.log, os.path.basename(given.file)
    entry = "" if result.name == "main" else f"{result.name}: "
    if log.refusals:
        for it in sorted(log.refusals):
            print(it.text())
        print(f"{name}: {entry}not translated: {count(len(log.refusals), 'construct')}")
        return FAILED
    for it in result.diagnostics:
        print("\n".join(it.lines(result.translation.source)))
    if not given.quiet:
        for it in sorted(log.notes):
            print(it.text())
    if result.safe:
        where = (
            f"certificate in {emitted_name(given, result, '.t')}"
            if given.emit
            else f"certificate of {len(result.answer.document.splitlines())} lines"
        )
        functions = count(result.translation.functions, "function")
        print(f"{name}: {entry}proved safe ({functions}, {where}){assumed(result)}")
        return PROVED
    if any(it.rule == "not-proved" for it in result.diagnostics):
        return FAILED
    print(
        f"{name}: {entry}{count(len(result.diagnostics), 'error')}"
        if result.diagnostics
        else f"{name}: {entry}{result.explanation}"
    )
    return FOUND


def assumed(result):
    """What a proof about a function by itself assumes of its arguments and of the file's variables."""
    tags = dict.fromkeys(result.translation.shapes)
    names = [next((it.name for it in result.answer.shapes if it.tag == tag), tag) for tag in tags]
    return ", where pointers are of the shape " + ", ".join(f"'{it}'" for it in names) if names else ""


def count(number, word):
    return f"{number} {word}{'' if number == 1 else 's'}"


def emitted_name(given, result, ending):
    base = os.path.splitext(os.path.basename(given.file))[0]
    base += "" if result.name == "main" else f".{result.name}"
    return os.path.join(given.emit, base + ending)


def write_files(results, given):
    """The files that were asked for."""
    if given.emit:
        os.makedirs(given.emit, exist_ok=True)
        for it in results:
            emit(it, given)
    if given.sarif:
        write(given.sarif, sarif(results))
    if given.html:
        from .page import page

        write(given.html, page(results, os.path.basename(given.file)))


def emit(result, given):
    if result.answer is None:
        return
    write(emitted_name(given, result, ".c"), result.answer.program)
    write(emitted_name(given, result, ".d"), result.answer.definitions)
    if result.answer.document:
        write(emitted_name(given, result, ".t"), result.answer.document)
    if result.answer.script:
        lines = [json.dumps(it, separators=(",", ":")) for it in result.answer.script]
        write(emitted_name(given, result, ".s"), "\n".join(lines) + "\n")


def write(path, text):
    with open(path, "w", encoding="utf-8") as file:
        file.write(text)

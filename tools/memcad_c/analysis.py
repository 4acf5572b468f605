"""From a file to answers: translation, definitions, memcad, diagnostics."""

import re
from dataclasses import dataclass, field

from . import runs
from .definitions import proposals
from .diagnostics import Diagnostic, Explainer, distinct
from .engine import Engine
from .facts import nodes_below
from .harness import HarnessFault, complete
from .messages import Place
from .structs import emitted
from .kinds import Pointer
from .translation import translator


@dataclass
class Result:
    """What is said of one entry of a file: of `main`, or of a function with a harness."""

    name: str
    translation: object
    answer: object = None
    diagnostics: list = field(default_factory=list)
    explanation: str = ""

    @property
    def safe(self):
        return self.answer is not None and self.answer.safe


@dataclass
class Options:
    """What the user asks for."""

    path: str
    memcad: str = ""
    harness: object = None
    definitions: object = None
    includes: tuple = ()
    defines: tuple = ()
    seconds: float = 4
    more: int = 20


def public_functions(program):
    return [it.name for it in program.functions.values() if not it.static and it.name != "main"]


def entries(options):
    """The functions to analyse one by one; None stands for `main`."""
    if options.harness:
        return [options.harness]
    first = translator(options.path, options.includes, options.defines)
    if "main" in first.program.functions:
        return [None]
    functions = first.program.functions.values()
    return public_functions(first.program) or [it.name for it in functions if not it.parameters][:1]


def analyse_file(options):
    """The results of a file, one for each entry."""
    return [analyse_entry(options, it) for it in entries(options)]


def analyse_entry(options, harness):
    made = translator(options.path, options.includes, options.defines)
    if harness is not None and harness not in made.program.functions:
        raise HarnessFault(f"the file has no function '{harness}'")
    translation = made.translate(harness)
    result = Result(harness or "main", translation)
    if translation.log.refusals:
        return result
    engine = Engine(options.memcad, translation.entry)
    sets = proposals(translation.program, made.kinds, translation.shapes)
    result.answer = engine.best(translation, sets, options.definitions)
    if not result.safe:
        explain(options, engine, made, result)
    return result


def explain(options, engine, made, result):
    """Diagnostics for what is not proved."""
    answer, translation = result.answer, result.translation
    explainer = Explainer(translation)
    if answer.status in (3, 4) and answer.last != "program: NotYet":
        result.diagnostics = [own_fault(answer, translation)]
        return
    result.diagnostics = distinct([explainer.of_alarm(it) for it in answer.report.alarms])
    runner = make_runner(engine, made, answer)
    faults = faults_of(options, runner, made.program, answer)
    found = [told_fault(explainer, runner, made.program, answer, it) for it in faults]
    result.diagnostics = distinct(joined(found, result.diagnostics))
    if faults:
        answer.script = faults[0].script
    elif not result.diagnostics:
        result.explanation = why_not(answer)


def faults_of(options, runner, program, answer):
    """The faults to which runs lead: on the scripts of alarms, or where none has one, on scripts that are looked for."""
    if runner is None:
        return []
    faults = runner.faults_of(answer.report.alarms)
    if faults or options.seconds <= 0 or answer.report.alarms and not has_loops(program):
        return faults
    fault = runner.search(options.seconds, more=options.more)
    return [fault] if fault else []


def told_fault(explainer, runner, program, answer, fault):
    guilty = culprit(runner, explainer.translation, answer, program, fault)
    return explainer.of_fault(fault.kind, fault.line, fault.column, fault.script, guilty)


def joined(found, alarms):
    """Faults that runs have, and the alarms of other lines; a fault takes over what is known in the alarm of its line."""
    by_line = {it.place.line: it for it in reversed(alarms)}
    for it in found:
        alarm = by_line.get(it.place.line)
        if alarm is not None:
            it.state = alarm.state
            it.notes += [note for note in alarm.notes if note not in it.notes]
    lines = [it.place.line for it in found]
    return [*found, *[it for it in alarms if it.place.line not in lines]]


def has_loops(program):
    names = ("While", "DoWhile", "For")
    return any(type(node).__name__ in names for it in program.functions.values() for node in nodes_below(it.node.body))


def make_runner(engine, made, answer):
    structures = {
        tag: [(text, isinstance(kind, Pointer)) for text, kind in emitted(made.program, tag)]
        for tag, it in made.program.structures.items()
        if it.complete
    }
    try:
        return runs.Runner(engine, answer.program, answer.definitions, structures, runs.commands_of(answer.program))
    except (IndexError, ValueError):
        return None


def culprit(runner, translation, answer, program, fault):
    """Of several pointers that a statement follows, the one that the fault is of: each is probed before it."""
    number = translation.text.at(fault.line, fault.column)
    accesses = translation.text.fragments[number].origin.accesses
    if fault.kind not in ("null", "freed") or len(accesses) < 2:
        return accesses[0] if len(accesses) == 1 else None
    probes = []
    for it in accesses:
        field = emitted(program, it.tag)[0][0]
        probes.append(f"if ({it.text}->{field} == {it.text}->{field}) {{ }}")
    for i, it in enumerate(accesses):
        text, places = translation.text.with_probes(number, [probes[i]])
        found = runner.place_in(complete(text.text(), answer.shapes), fault.script)
        at = places[0]
        if found and found[0] == fault.kind and found[1] == at[0] and at[1] <= found[2] < at[1] + len(probes[i]):
            return it
    return None


def own_fault(answer, translation):
    """memcad does not read what it is given: of definitions the user's own, else a fault of this tool."""
    found = re.match(r"(program|definitions): (\w+(?: \S+)?) at (\d+):(\d+)", answer.last)
    place = Place(translation.path, 1)
    if found and found[1] == "program":
        origin = translation.text.origin(int(found[3]), int(found[4]))
        place = origin.place if origin else place
    if answer.last == "program: TooLong":
        return Diagnostic(place, "not-proved", "the program is too long with all its calls written out")
    what = (
        "the definitions do not fit the program"
        if answer.last.startswith("definitions")
        else "the translation is not read"
    )
    return Diagnostic(place, "not-proved", f"{what}: memcad says '{answer.last}'")


def why_not(answer):
    if answer.last == "limit: seconds":
        return "not proved: the analysis took too long; no run that goes wrong was found"
    return "not proved: the analysis found neither a proof nor an alarm; no run that goes wrong was found"

"""Running memcad: each set of definitions in turn, until one gives a proof that its checker accepts."""

import os
import shutil
import subprocess
import tempfile
from dataclasses import dataclass, field

from .definitions import text_of
from .harness import complete
from .report import parse_report

ROOT = os.path.dirname(os.path.dirname(os.path.dirname(os.path.realpath(__file__))))
SECONDS = 20


class EngineFault(Exception):
    """memcad is not there, or says that our own text is wrong."""


def find_memcad(given=None):
    """The program memcad: as given, as MEMCAD in the environment, as built in this repository, or on the path."""
    for it in (
        given,
        os.environ.get("MEMCAD"),
        os.path.join(ROOT, "crates", "memcad", "out", "memcad"),
        shutil.which("memcad"),
    ):
        if it and os.access(it, os.X_OK):
            return it
    return None


@dataclass
class Answer:
    """What memcad says of one program with one set of definitions."""

    safe: bool
    status: int
    last: str
    report: object
    definitions: str
    shapes: list
    program: str
    document: str = ""
    checked: bool = False
    script: list = field(default_factory=list)
    run_fault: str = ""

    @property
    def places(self):
        return {it.place for it in self.report.alarms}


class Engine:
    """Tries sets of definitions on one translated program."""

    def __init__(self, memcad, entry):
        self.memcad = memcad
        self.entry = entry

    def command(self, folder, *words):
        try:
            return subprocess.run(
                [self.memcad, *words, "--entry", self.entry],
                cwd=folder,
                capture_output=True,
                text=True,
                timeout=SECONDS,
                check=False,
            )
        except subprocess.TimeoutExpired:
            return subprocess.CompletedProcess(words, 5, "limit: seconds\n", "")

    def analyse(self, program, definitions, shapes):
        """One analysis, and the check of its document."""
        with tempfile.TemporaryDirectory(prefix="memcad-c-") as folder:
            for name, text in (("p.c", program), ("p.d", definitions)):
                with open(os.path.join(folder, name), "w", encoding="utf-8") as file:
                    file.write(text)
            ran = self.command(folder, "analyse", "p.c", "p.d", "--document", "p.t")
            lines = ran.stdout.splitlines()
            last = lines[-1] if lines else ""
            answer = Answer(False, ran.returncode, last, parse_report(ran.stdout), definitions, shapes, program)
            if ran.returncode == 0 and last == "safe":
                again = self.command(folder, "check", "p.c", "p.d", "p.t")
                answer.checked = again.returncode == 0 and again.stdout.strip() == "safe"
                answer.safe = answer.checked
            if os.path.exists(os.path.join(folder, "p.t")):
                with open(os.path.join(folder, "p.t"), encoding="utf-8") as file:
                    answer.document = file.read()
            return answer

    def best(self, translation, proposals, given=None):
        """The first proof, else the answer that says most."""
        sets = [([], given)] if given is not None else [(it, text_of(it)) for it in proposals] or [([], "")]
        answers = []
        for shapes, text in sets:
            program = complete(translation.text.text(), shapes)
            answer = self.analyse(program, text, shapes)
            if answer.status == 3 and answer.last != "program: NotYet" or answer.status in (2, 4) and given is None:
                answers.append(answer)
                continue
            if answer.safe:
                return self.slimmer(program, answer, given)
            answers.append(answer)
        return min(answers, key=worth)

    def slimmer(self, program, answer, given):
        """A second attempt without the predicates that the proof does not need."""
        if given is not None or not answer.shapes:
            return answer
        left = list(answer.shapes)
        for it in list(reversed(left)):
            fewer = [one for one in left if one is not it]
            again = self.analyse(program, text_of(fewer), fewer)
            if again.safe:
                left, answer = fewer, again
        return answer


def worth(answer):
    """Answers with alarms come first, those with few first; then those that find nothing; then those that do not fit."""
    if answer.status == 1 and answer.report.alarms:
        return (0, len(answer.places))
    if answer.last in ("program: NotYet", "limit: seconds") or answer.status == 5:
        return (1, 0)
    return (2, 0)

"""The command as users see it: diagnostics, statuses, SARIF, the page, the harness, refusals."""

import json
import os
import re
import shutil
import subprocess

import pytest
from programs import CASES, MEMCAD, translated

from memcad_c.analysis import Options, analyse_file
from memcad_c.cli import main

NEEDS_MEMCAD = pytest.mark.skipif(MEMCAD is None, reason="no built memcad: set MEMCAD, or run rt ci first")
BUGS = {
    "03_bug": (7, "'head' is null here"),
    "11_bug": (66, "'l' has not the shape"),
    "13_bug": (50, "'root' has not the shape"),
    "17_bug": (9, "'x->next' is null here"),
    "19_bug": (57, "memory is still allocated"),
    "23_bug": (8, "'t' is null here (from malloc at 7:15)"),
    "25_bug": (36, "memory is still allocated"),
}


EXAMPLES = os.path.join(os.path.dirname(os.path.dirname(CASES)), "examples")
EXAMPLE = os.path.join(EXAMPLES, "queue.c")


def case(*names):
    return os.path.join(CASES, *names)


def said(capsys, *words):
    status = main([*words, "--memcad", MEMCAD])
    return status, capsys.readouterr().out


@NEEDS_MEMCAD
@pytest.mark.parametrize("name", sorted(BUGS))
def test_bugs_are_found_at_their_lines(name):
    line, words = BUGS[name]
    (result,) = analyse_file(Options(case("bugs", name + ".c"), MEMCAD, seconds=30, more=0))
    assert not result.safe
    assert any(it.place.line == line and words in it.message for it in result.diagnostics), result.diagnostics


@NEEDS_MEMCAD
def test_alarms_look_like_a_compilers(capsys):
    status, text = said(capsys, EXAMPLE, "-q")
    assert status == 1
    assert f"{EXAMPLE}:11:5: error: 'it' is null here (from malloc at 10:18) [null-deref]" in text
    assert "queue.c:30:12: error: 'q.head' points to freed memory here [use-after-free]" in text
    assert "   11 |     it->value = value;\n      |     ^\n" in text
    assert text.endswith("queue.c: 2 errors\n")


@NEEDS_MEMCAD
def test_each_kind_of_fault_has_its_words(capsys):
    _, text = said(capsys, case("bugs", "faults.c"), "-q")
    found = {(int(it[1]), it[2]) for it in re.finditer(r"faults\.c:(\d+):\d+: error: .* \[([\w-]+)\]", text)}
    assert found == {
        (6, "bounds"),
        (7, "division"),
        (15, "uninitialized"),
        (16, "uninitialized"),
        (17, "bad-free"),
        (18, "assertion"),
        (21, "leak"),
        (22, "use-after-free"),
        (23, "null-deref"),
    }


@NEEDS_MEMCAD
def test_the_first_example_is_proved(capsys):
    status, text = said(capsys, os.path.join(EXAMPLES, "insert.c"))
    assert status == 0 and re.fullmatch(r"insert\.c: proved safe \(2 functions, certificate of \d+ lines\)\n", text)


@NEEDS_MEMCAD
def test_proved_programs_say_so_in_one_line(capsys, tmp_path):
    status, text = said(capsys, case("real", "05_queue.c"), "-q", "--emit", str(tmp_path))
    assert status == 0
    assert text == f"05_queue.c: proved safe (6 functions, certificate in {tmp_path}/05_queue.t)\n"
    words = ["check", "05_queue.c", "05_queue.d", "05_queue.t"]
    ran = subprocess.run([MEMCAD, *words], cwd=tmp_path, capture_output=True, text=True, check=False)
    assert (ran.returncode, ran.stdout) == (0, "safe\n")


@NEEDS_MEMCAD
def test_files_without_main_get_harnesses(capsys):
    status, text = said(capsys, case("library", "stack.c"), "-q", "--seconds", "20")
    assert status == 1
    assert "stack.c: push: proved safe" in text and "stack.c: clear: proved safe" in text
    assert "stack.c:21:16: error: 'n' is null here" in text
    assert said(capsys, case("library", "stack.c"), "-q", "--harness", "push")[0] == 0


@NEEDS_MEMCAD
def test_definitions_may_be_given(capsys, tmp_path):
    given = tmp_path / "own.d"
    given.write_text("def list(this) { rule { this = 0; } rule { this -> node { data: _, next: n }; list(n); } }\n")
    assert said(capsys, case("real", "03_isort.c"), "-q", "-d", str(given))[0] == 0
    given.write_text("def list(this) { rule { this = 0; } }\n")
    assert said(capsys, case("real", "03_isort.c"), "-q", "-d", str(given), "--seconds", "0")[0] == 0


@NEEDS_MEMCAD
def test_sarif(capsys, tmp_path):
    said(capsys, EXAMPLE, "-q", "--sarif", str(tmp_path / "out.sarif"))
    log = json.loads((tmp_path / "out.sarif").read_text())
    (run,) = log["runs"]
    assert log["version"] == "2.1.0" and run["tool"]["driver"]["name"] == "memcad-c"
    rules = {it["id"] for it in run["tool"]["driver"]["rules"]}
    assert {it["ruleId"] for it in run["results"]} == {"null-deref", "use-after-free"} <= rules
    region = run["results"][0]["locations"][0]["physicalLocation"]["region"]
    assert region == {"startLine": 11, "startColumn": 5}


@NEEDS_MEMCAD
@pytest.mark.skipif(shutil.which("dot") is None, reason="no dot of graphviz")
@pytest.mark.parametrize("name", ["../../examples/queue.c", "real/01_slist.c", "refused/many.c"])
def test_page_stands_alone(capsys, tmp_path, name):
    said(capsys, case(*name.split("/")), "-q", "--html", str(tmp_path / "page.html"))
    text = (tmp_path / "page.html").read_text()
    assert ("<svg" in text) == (not name.startswith("refused"))
    assert not re.search(r'(src|href)="(?!http://www.w3.org)', text.replace("xmlns", "")) and "<script" not in text
    assert text.count("<svg") == text.count("</svg>") and text.rstrip().endswith("</html>")


def test_refusals_are_listed_whole():
    made = translated(case("refused", "many.c"))
    found = {(it.place.line, it.construct) for it in made.log.refusals}
    lines = {line for line, _ in found}
    assert {6, 10, 11, 12, 13, 15, 16, 17, 18, 21} <= lines, sorted(found)
    assert all(it.reason and it.instead for it in made.log.refusals)


@NEEDS_MEMCAD
def test_refused_files_end_with_2(capsys):
    status, text = said(capsys, case("refused", "many.c"))
    assert status == 2 and "not translated: " in text.splitlines()[-1]


@NEEDS_MEMCAD
def test_broken_files_end_with_2(capsys, tmp_path):
    broken = tmp_path / "broken.c"
    broken.write_text("#include <stdlib.h>\nint main(void) { return 0 }\n")
    status, text = said(capsys, str(broken))
    assert status == 2 and text.startswith(f"{broken}:2:")
    broken.write_text('#include "missing.h"\n')
    assert said(capsys, str(broken))[0] == 2


def test_lines_of_the_translation_are_the_users():
    made = translated(case("real", "05_queue.c"))
    lines = made.text.text().splitlines()
    assert "it = q->head" in lines[31] and "free(it)" in lines[37] and "assert_empty" in lines[59]


@NEEDS_MEMCAD
def test_no_stronger_assumption_is_tried_for_a_proof(capsys):
    status, text = said(capsys, case("library", "take.c"), "-q", "--seconds", "10")
    assert status == 1 and "take.c:8:13: error: 'e' " in text and "null" in text

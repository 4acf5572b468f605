"""What memcad writes to standard error: help, what is wrong with words, which file fails. Its answer stays as it is."""

import os
import shutil
import subprocess

import pytest
from programs import MEMCAD, TOOLS

pytestmark = pytest.mark.skipif(MEMCAD is None, reason="no built memcad: set MEMCAD, or run rt ci first")
DATA = os.path.join(os.path.dirname(TOOLS), "crates", "memcad", "data")
REFUSED = "words: refused\n"
FILES = "list.c list.d"
MISSING = "cannot be read: No such file or directory"

# Words, the status, what is printed, and what standard error has.
CASES = [
    ("", 2, REFUSED, ["memcad: a command is missing", "  check ", "  run ", "  analyse "]),
    ("chek", 2, REFUSED, ["memcad: unrecognized subcommand 'chek'", "'check'", "\nCommands:\n  check ", "  run ", "  analyse "]),
    ("--help", 2, REFUSED, ["  check ", "  run ", "  analyse ", "  demo ", "  0  safe", "  9  ", "docs/FORMATS.md"]),
    ("-h", 2, REFUSED, ["Usage: memcad <COMMAND>"]),
    ("--version", 2, REFUSED, ["memcad 1"]),
    ("check --help", 2, REFUSED, ["Usage: memcad check [OPTIONS] <PROGRAM> <DEFINITIONS> <DOCUMENT>"]),
    ("run -h", 2, REFUSED, ["Usage: memcad run [OPTIONS] <PROGRAM> <DEFINITIONS> <SCRIPT>", "--fuel <N>"]),
    ("analyse --help", 2, REFUSED, ["--disjuncts <N>", "[default: 16]", "--document <FILE>"]),
    (f"check {FILES}", 2, REFUSED, ["memcad: the following required arguments were not provided:\n  <DOCUMENT>", "Usage: memcad check"]),
    (f"analyse {FILES} --disjuncts 0", 2, REFUSED, ["memcad: invalid value '0' for '--disjuncts <N>': 0 is not in 1..=64"]),
    (f"run {FILES} list.s --fuel many", 2, REFUSED, ["memcad: invalid value 'many' for '--fuel <N>'"]),
    (f"analyse {FILES} --disjunct 4", 2, REFUSED, ["memcad: unexpected argument '--disjunct' found", "'--disjuncts'"]),
    (f"run {FILES} list.s more", 2, REFUSED, ["memcad: unexpected argument 'more' found"]),
    ("demo", 2, REFUSED, ["memcad: the following required arguments were not provided:\n  <NUMBER>", "Usage: memcad demo"]),
    ("demo x", 2, REFUSED, ["memcad: invalid value 'x' for '<NUMBER>'"]),
    ("demo 4294967296", 2, REFUSED, ["memcad: invalid value '4294967296' for '<NUMBER>'"]),
    ("analyse none.c none.d", 7, "", [f"memcad: none.c: {MISSING}", f"memcad: none.d: {MISSING}"]),
    (f"check {FILES} none.t", 7, "", [f"memcad: none.t: {MISSING}"]),
    ("analyse list.c .", 7, "", ["memcad: .: cannot be read: Is a directory"]),
    ("analyse new.c list.d --document none/new.t", 7, "", ["memcad: none/new.t: the document cannot be written: its folder is missing"]),
    ("analyse new.c list.d --document .", 7, "", ["memcad: .: the document cannot be written: Is a directory"]),
    ("analyse new.c list.d --document /dev/full", 7, "", ["memcad: /dev/full: the document could not be written whole"]),
]


@pytest.fixture
def folder(tmp_path):
    return shutil.copytree(DATA, tmp_path / "data")


def ran(folder, words, **how):
    how = {"stdout": subprocess.PIPE, **how}
    return subprocess.run([MEMCAD, *words.split()], cwd=folder, stderr=subprocess.PIPE, text=True, timeout=60, check=False, **how)


@pytest.mark.parametrize("words,status,printed,said", CASES, ids=[it[0] or "no words" for it in CASES])
def test_words_that_give_no_verdict(folder, words, status, printed, said):
    it = ran(folder, words)
    assert (it.returncode, it.stdout) == (status, printed)
    assert all(part in it.stderr for part in said), it.stderr


def test_programs_are_made_and_judged(folder):
    one, other = ran(folder, "demo 0"), ran(folder, "demo 0")
    lines = one.stdout.splitlines()
    assert (one.returncode, one.stderr, other.stdout) == (0, "", one.stdout)
    assert lines[:2] == ["1: 1 3 4: alarms: 2", "2: 0 1 0: safe"]
    assert len(lines) == 65 and lines[64].startswith("demo: ")


def test_a_verdict_says_nothing_more(folder):
    for words, printed in ((f"check {FILES} list.t", "safe\n"), ("run null.c list.d null.s", "fault: null at 9:5\n")):
        it = ran(folder, words)
        assert (it.stdout, it.stderr) == (printed, "")


# The last cell of a list is found by a loop, whose state changes once more than one round allows.
LAST = """struct node { int data; struct node *next; };
int main() {
  struct node *l;
  struct node *c;
  assume_shape(list, l);
  if (l == NULL) return 0;
  if (l->next == NULL) {
    free(l);
    return 0;
  }
  c = l;
  while (c->next->next != NULL) c = c->next;
  free(c->next);
  c->next = NULL;
  assert_shape(list, l);
  return 0;
}
"""


def test_nothing_found_says_what_to_try(folder):
    (folder / "last.c").write_text(LAST)
    it = ran(folder, "analyse last.c list.d --rounds 1 --disjuncts 1")
    assert (it.returncode, it.stdout) == (3, "program: NotYet\n")
    assert "which says nothing of the program" in it.stderr and "try another --disjuncts" in it.stderr


def test_a_document_over_the_program_is_told(folder):
    it = ran(folder, "analyse new.c list.d --document new.c")
    assert it.returncode == 1 and "memcad: warning: new.c is also the program" in it.stderr
    assert (folder / "new.c").read_text().startswith('["memcad",1,"chain"]')


def test_a_full_output_is_told(folder):
    with open("/dev/full", "w", encoding="utf-8") as full:
        it = ran(folder, f"check {FILES} list.t", stdout=full)
    assert it.returncode == 7 and it.stderr == "memcad: the answer could not be written to standard output\n"

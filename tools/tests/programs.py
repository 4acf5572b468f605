"""Runs programs for the tests: the user's text and its translation, compiled side by side."""

import os
import subprocess
import sys

HERE = os.path.dirname(os.path.realpath(__file__))
TOOLS = os.path.dirname(HERE)
sys.path.insert(0, TOOLS)

from memcad_c.engine import find_memcad  # noqa: E402  (the path comes first)
from memcad_c.translation import translator  # noqa: E402

CASES = os.path.join(HERE, "cases")
MEMCAD = find_memcad()
RUNS = int(os.environ.get("MEMCAD_TEST_RUNS", "1000"))
CHECKED = ["-std=gnu11", "-O0", "-w", "-fwrapv", "-fsanitize=address,undefined", "-fno-sanitize-recover=all"]
CHECKED += ["-fsanitize-address-use-after-scope", "-ftrivial-auto-var-init=zero"]
RUNNING = {
    "ASAN_OPTIONS": "detect_leaks=0:symbolize=0:detect_stack_use_after_return=1:max_malloc_fill_size=4096:malloc_fill_byte=0",
    "UBSAN_OPTIONS": "print_stacktrace=0",
}

# Random structures for assume_shape: the text works for a program and for its translation.
SHAPES = {
    "list": """
void *shape_list(void) { NODE *l = 0; while (memcad_random() % 4) { NODE *n = memcad_block(sizeof *n); *(int *)n = input();
    n->next = l; l = n; memcad_blocks++; } return l; }""",
    "dll": """
void *shape_dll(void) { NODE *l = 0; while (memcad_random() % 4) { NODE *n = memcad_block(sizeof *n); n->data = input();
    n->next = l; n->prev = 0; if (l) l->prev = n; l = n; memcad_blocks++; } return l; }""",
    "tree": """
static NODE *some_tree(int d) { if (d == 0 || memcad_random() % 4 == 0) return 0; NODE *n = memcad_block(sizeof *n);
    memcad_blocks++; n->key = input(); n->left = some_tree(d - 1); n->right = some_tree(d - 1); return n; }
void *shape_tree(void) { return some_tree(4); }""",
    "skip": """
void *shape_skip(void) { NODE *l = 0, *up = 0; while (memcad_random() % 6) { NODE *n = memcad_block(sizeof *n);
    n->key = input(); SLOT(n, 0) = l; SLOT(n, 1) = 0; if (memcad_random() % 2) { SLOT(n, 1) = up; up = n; } l = n; }
    if (l && l != up) SLOT(l, 1) = up; return l; }""",
}


def translated(path):
    """The translator's answer for `main`."""
    return translator(path).translate()


def with_shapes(text, shapes, slot):
    """A program's text with what assume_shape gives it, and the driver of its runs."""
    made = [text, f"#define SLOT(n, i) {slot}"]
    for name, node in shapes.items():
        made += [f"#undef NODE\n#define NODE struct {node}", SHAPES[name]]
    return "\n".join([*made, f'#include "{HERE}/driver.h"', ""])


def ends(text, folder, name, runs=RUNS):
    """How each run of a C text ends, seed by seed."""
    source, program = os.path.join(folder, name + ".c"), os.path.join(folder, name)
    with open(source, "w", encoding="utf-8") as file:
        file.write(text)
    words = ["gcc", *CHECKED, "-I", os.path.join(TOOLS, "include"), "-include", os.path.join(HERE, "prelude.h")]
    made = subprocess.run(
        [*words, "-Dmain=memcad_program", source, "-o", program], capture_output=True, text=True, check=False
    )
    assert made.returncode == 0, made.stderr[:3000]
    ran = subprocess.run(
        [program, str(runs)], capture_output=True, text=True, env={**os.environ, **RUNNING}, check=False
    )
    assert ran.returncode == 0, ran.stderr[:2000]
    return ran.stdout.splitlines()


def both_ends(path, folder, shapes=None, runs=RUNS):
    """How the runs of a program end, and those of its translation."""
    made = translated(path)
    assert not made.log.refusals, [it.text() for it in made.log.refusals]
    shapes = shapes or {}
    original = with_shapes(made.source.replace('#include "memcad.h"', ""), shapes, "n->forward[i]")
    other = with_shapes(made.text.executable(), shapes, "n->forward_##i")
    name = os.path.splitext(os.path.basename(path))[0]
    return ends(original, folder, name + "_original", runs), ends(other, folder, name + "_translated", runs)

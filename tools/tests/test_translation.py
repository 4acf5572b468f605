"""Each translation behaves as the program that it comes from, memcad reads it, and what it proves is so."""

import glob
import os
import subprocess

import pytest
from programs import CASES, MEMCAD, translated

from memcad_c.analysis import Options, analyse_file

REAL = os.path.join(CASES, "real")
SHAPES = {
    "03_isort": {"list": "node"},
    "11_glist": {"dll": "_GList"},
    "13_bst": {"tree": "tree"},
    "17_skip": {"skip": "snode"},
    "23_poly": {"list": "term"},
    "25_bignum": {"list": "digit"},
}
NOT_READ = {"15_nary": {"recursion"}, "19_ast": {"recursion"}}
NEEDS_MEMCAD = pytest.mark.skipif(MEMCAD is None, reason="no built memcad: set MEMCAD, or run rt ci first")


def name_of(path):
    return os.path.splitext(os.path.basename(path))[0]


SMALL = sorted(glob.glob(os.path.join(CASES, "*.c")))
WHOLE = [it for it in sorted(glob.glob(os.path.join(REAL, "*.c"))) if name_of(it) not in NOT_READ]


@pytest.fixture(scope="module")
def ends(runs):
    """How the runs of each program end, and those of its translation."""
    return {it: runs.start(it, SHAPES.get(name_of(it))) for it in SMALL + WHOLE}


@pytest.mark.parametrize("path", SMALL + WHOLE, ids=name_of)
def test_same_ends(path, ends):
    original, other = ends[path].result()
    assert len(original) == len(other)
    different = [(seed + 1, one, two) for seed, (one, two) in enumerate(zip(original, other)) if one != two]
    assert not different, f"{len(different)} of {len(original)} runs end otherwise: {different[:5]}"


@NEEDS_MEMCAD
@pytest.mark.parametrize("path", SMALL + WHOLE, ids=name_of)
def test_proved_programs_have_no_faults(path, ends):
    (result,) = analyse_file(Options(path, MEMCAD, seconds=0))
    faults = {it for it in ends[path].result()[0] if not it.startswith("end ")}
    assert not (result.safe and faults), faults
    assert not any(it.rule == "not-proved" for it in result.diagnostics), result.diagnostics


@pytest.mark.parametrize("name", sorted(NOT_READ))
def test_refusals_are_told(name):
    made = translated(os.path.join(REAL, name + ".c"))
    assert {it.construct.split()[0] for it in made.log.refusals} == NOT_READ[name]


@NEEDS_MEMCAD
@pytest.mark.parametrize("path", SMALL + WHOLE, ids=name_of)
def test_memcad_reads(path, tmp_path):
    made = translated(path)
    for name, text in (("p.c", made.text.text()), ("p.d", ""), ("p.s", "")):
        (tmp_path / name).write_text(text)
    ran = subprocess.run(
        [MEMCAD, "run", "p.c", "p.d", "p.s"], cwd=tmp_path, capture_output=True, text=True, check=False
    )
    is_shape = "assume_shape" in made.source and ran.stdout.startswith("program: Unknown")
    assert is_shape or not ran.stdout.startswith("program:"), ran.stdout

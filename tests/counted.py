"""Compare the instructions of the program with a stored table.

They are no times, so a slow-down of one percent shows even on a busy machine. Fewer than in the table fail, too, since
it would no longer guard them: `tests/store_counts PROGRAM` stores them again. Another compiler, kit or processor gives
other counts, which are not compared.
"""

import os
import tomllib
from concurrent.futures import ThreadPoolExecutor
from pathlib import Path

import pytest

from lib.cases import Cases
from lib.counts import Done, built_by, count_instructions, parts_of
from lib.needs import OF_ANOTHER_BUILD, needs
from lib.paths import ROOT
from lib.samples import COMMANDS, sample_of

pytestmark = pytest.mark.valgrind

# The instructions of each part of a run, and the total.
Parts = dict[str, int]

TABLE = ROOT / "tests" / "counts.toml"
SIZES = {"1 KiB": 1 << 10, "1 MiB": 1 << 20}
RUNS = [f"{command}, {size}" for size in SIZES for command in COMMANDS]
# How far a count may differ from the table: by this fraction, or by how much the start of a process varies.
TOLERANCE, SLACK = 0.01, 20_000


def counted(cases: Cases, name: str) -> Parts:
    """Return the counts of a run, which must end as expected."""
    command, size = name.split(", ")
    sample = sample_of(cases, command, (b"secret: value\n" * SIZES[size])[: SIZES[size]])
    done, functions = count_instructions([cases.program, *sample.words], sample.stdin)
    assert done == Done(0, sample.output, b""), name
    return parts_of(functions)


@pytest.mark.parametrize("name", RUNS)
def test_instructions(cases: Cases, name: str) -> None:
    needs("valgrind")
    stored = tomllib.loads(TABLE.read_text())
    if stored["built_by"] != built_by(cases.program):
        pytest.skip(f"{OF_ANOTHER_BUILD}: tests/counts.toml is of a program by {stored['built_by']}")
    near = pytest.approx(stored["instructions"][name], rel=TOLERANCE, abs=SLACK)
    assert counted(cases, name) == near, "what is less is to be stored by tests/store_counts"


def store(program: str, folder: Path) -> None:
    """Store the counts of this program in the table."""
    cases = Cases(program, folder)
    lines = ["# What tests/counted.py compares: written by tests/store_counts.", f'built_by = "{built_by(program)}"']
    with ThreadPoolExecutor(len(os.sched_getaffinity(0))) as pool:
        for name, counts in zip(RUNS, pool.map(lambda name: counted(cases, name), RUNS)):
            lines += [f'\n[instructions."{name}"]', *(f'"{part}" = {count}' for part, count in counts.items())]
    TABLE.write_text("\n".join(lines) + "\n")

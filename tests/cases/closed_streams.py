"""Standard streams that are closed at the start: reading or writing one fails, and the output is as it was.

`with_strace.py` shows that each run asks which streams are closed, and `faults.py` has texts whose writes fail.
"""

import itertools
from pathlib import Path
from typing import NamedTuple

import pytest

from lib.cases import OLD, Cases, answer_of
from lib.processes import run
from lib.samples import TO_OUTPUT, each_command, sample_of
from model.faults import Fault

STDIN, STDOUT, STDERR = range(3)
COMBINATIONS = [set(each) for count in range(4) for each in itertools.combinations((STDIN, STDOUT, STDERR), count)]


class Way(NamedTuple):
    """Whether the input is FILE, or else standard input; and whether the output goes to a file."""

    is_named: bool
    to_file: bool


def list_ways(command: str) -> list[Way]:
    ways = [Way(is_named, to_file) for is_named in (False, True) for to_file in (False, True)]
    if command == "encrypt_string":
        ways = [way for way in ways if not way.is_named]
    if command not in TO_OUTPUT:
        ways = [way for way in ways if not way.to_file]
    return ways


def fault_of(closed: set[int], way: Way) -> Fault | None:
    """Return the fault of a run that needs a closed stream. It reads before it writes."""
    if STDIN in closed and not way.is_named:
        return Fault.INPUT_NOT_READ
    if STDOUT in closed and not way.to_file:
        return Fault.NOT_WRITTEN
    return None


def check_run(cases: Cases, command: str, closed: set[int], way: Way) -> None:
    sample = sample_of(cases, command)
    output, given = Path(cases.file(OLD)), cases.file(sample.stdin)
    words = [*sample.words]
    if way.is_named:
        words.append(given)
    if command in TO_OUTPUT:
        words += ["--output", str(output) if way.to_file else "-"]
    closings = " ".join(f"{stream}>&-" for stream in closed)
    with open(given, "rb") as stdin:
        done = run(["sh", "-c", f'exec "$@" {closings}', "sh", cases.program, *words], stdin)
    fault = fault_of(closed, way)
    if fault:
        message = b"" if STDERR in closed else fault.line
        assert answer_of(done) == (fault.status, b"", message), f"{way}: status, output and message"
        assert output.read_bytes() == OLD, f"{way}: the file stays"
    else:
        printed, left = (b"", sample.output) if way.to_file else (sample.output, OLD)
        assert answer_of(done) == (0, printed, b""), f"{way}: status, output and message"
        assert output.read_bytes() == left, f"{way}: what the file has"


@pytest.mark.parametrize("closed", COMBINATIONS, ids=lambda closed: f"{sorted(closed)} closed")
@each_command
def test_every_combination(cases: Cases, command: str, closed: set[int]) -> None:
    for way in list_ways(command):
        check_run(cases, command, closed, way)

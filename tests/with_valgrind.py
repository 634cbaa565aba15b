"""Run the program under memcheck, with random requests: its answers are the model's, and memcheck reports nothing."""

import itertools
import shlex
import tempfile

import pytest

from lib.needs import needs
from model.compared import differences
from model.random_requests import Case, make

pytestmark = pytest.mark.valgrind

REQUESTS = 60
# Larger requests take long under memcheck.
WORDS, BYTES = 14, 1 << 14


def is_small(case: Case) -> bool:
    return len(case.words) <= WORDS and all(len(part or b"") <= BYTES for part in (case.stdin, *case.files.values()))


@pytest.fixture(scope="module")
def requests() -> list[Case]:
    made = (make(f"memcheck-{number}") for number in itertools.count())
    return [*itertools.islice(filter(is_small, made), REQUESTS)]


@pytest.mark.parametrize("number", range(REQUESTS))
def test_memcheck(program: str, requests: list[Case], number: int) -> None:
    needs("valgrind")
    with tempfile.NamedTemporaryFile("r") as log:
        found = differences(requests[number], ["valgrind", "--quiet", f"--log-file={log.name}", program])
        assert (found, log.read()) == ([], ""), shlex.join(requests[number].words)

"""Random requests to the program: output, files, message and status agree with the model.

Each is made from --seed and its own number: `pytest -m fuzz --seed SEED --first NUMBER --runs 1` repeats one.
"""

import shlex
import time
from collections.abc import Callable

import pytest

from model.compared import differences
from model.random_requests import make

pytestmark = pytest.mark.fuzz

# Each part is one test, so that the processes of pytest-xdist can share the requests.
PARTS = 4
# The least number of requests in a part, however long they take.
FEWEST = 10


@pytest.mark.parametrize("part", range(PARTS))
def test_random_requests(
    program: str, part: int, pytestconfig: pytest.Config, record_property: Callable[[str, object], None]
) -> None:
    seed, first, runs, seconds = map(pytestconfig.getoption, ("--seed", "--first", "--runs", "--seconds"))
    numbers = range(first + part, first + runs, PARTS)
    end = time.monotonic() + seconds
    made = 0
    found = []
    for number in numbers:
        if time.monotonic() > end and made >= FEWEST:
            break
        case = make(f"{seed}-{number}")
        if lines := differences(case, [program]):
            found += [f"{seed}-{number}: {shlex.join(case.words)[:400]}", *lines]
        assert made or differences(case, ["false"]), "a wrong program is noticed"
        made += 1
    record_property("random requests", (made, len(numbers)))
    assert found == [], "what differs from the model"

"""Refuse each of the program's memory allocations in turn, until a run has no more.

A run must end with `out of memory`, no output, and the file of `--output` unchanged. If fewer than two are refused, the
library was not loaded into the program, which is a failure.
"""

from collections.abc import Callable
from functools import partial

import pytest

from fault_injection import TARGETS, scenario_of
from lib.cases import Cases
from lib.needs import needs
from lib.preloaded import build_library, refusing_each
from model.faults import Fault

pytestmark = pytest.mark.allocations


@pytest.mark.parametrize("command, target", TARGETS)
def test_each_refused(cases: Cases, command: str, target: str, record_property: Callable[[str, object], None]) -> None:
    needs("cc")
    library = build_library(str(cases.folder), "refuse_allocation")
    scenario = scenario_of(cases, command, target, 1_000)
    refused, whole = refusing_each(library, partial(scenario.run, [cases.program]))
    assert [left for left in refused if left != scenario.untouched(Fault.MEMORY)] == [], "what others leave"
    assert whole == scenario.fault_free(), "the run in which none is refused"
    assert len(refused) > 1, "there are some to refuse"
    record_property("refused allocations", (len(refused), len(refused)))

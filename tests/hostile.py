"""Run the built program under limits of address space: a run ends with its whole output, or with `out of memory` and no
output. 20 MiB are enough for the longest plaintext."""

import pytest

from lib.cases import TEXT, Answer, Cases, answer_of, refusal
from lib.processes import run
from lib.samples import each_command, sample_of
from model.faults import Fault
from model.vaults import PLAINTEXT_LIMIT

MIB = 1 << 20
# The address space in which every run succeeds, and the steps between limits.
ENOUGH, STEP = 20 * MIB, MIB // 2


@pytest.mark.parametrize("size", (1_000, PLAINTEXT_LIMIT))
@each_command
def test_address_space(cases: Cases, command: str, size: int) -> None:
    """Try each limit under which the program starts, up to one under which every run succeeds."""
    sample, found = sample_of(cases, command, (TEXT * (size // len(TEXT) + 1))[:size]), []
    for amount in range(STEP, ENOUGH + 1, STEP):
        limited = ["prlimit", f"--as={amount}", "--core=0", cases.program]
        if run([*limited, "--version"]).returncode == 0:
            found.append(answer_of(run([*limited, *sample.words], sample.stdin)))
    refused = refusal(Fault.MEMORY)
    whole = Answer(0, sample.output, b"")
    assert found[0] == refused, "the answer under the least limit"
    assert found[-1] == whole, "the answer under the greatest limit"
    assert [each for each in found if each not in (refused, whole)] == [], "other answers"

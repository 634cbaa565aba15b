"""Fault injection: system calls that fail or transfer few bytes, and signals.

Status, streams, files and modes must be right: the output is untouched or a prefix of the whole, and no other file
exists. Of the runs with a failing call, one in --share is made, which --seed chooses, and at least one for each call
and error.
"""

import signal
import tempfile
from collections import Counter
from collections.abc import Callable, Iterator
from functools import partial
from pathlib import Path
from random import Random
from subprocess import PIPE

import pytest

from fault_injection import OUTPUT, OWNER_ONLY, STREAM, TARGETS, Left, Scenario, scenario_of
from lib.cases import OLD, TEXT, Cases, by_file
from lib.needs import needs
from lib.preloaded import build_library, run_with
from lib.processes import SECONDS, started
from lib.system_calls import Call, split_calls, tracing
from model.faults import Fault

pytestmark = pytest.mark.faults

# The errors of each call that can fail, apart from those that allocate memory (`failed_allocations.py`).
ERRORS = {
    "openat": ["EINTR", "EACCES", "EMFILE"],
    "read": ["EINTR", "EIO"],
    "write": ["EINTR", "EAGAIN", "ENOSPC", "EPIPE"],
    "statx": ["EIO"],
    "fchmod": ["EINTR", "EPERM"],
    "ftruncate": ["EINTR", "EPERM"],
    "fsync": ["EINTR", "EIO", "EINVAL"],
    "close": ["EINTR", "EIO"],
    "fcntl": ["EMFILE"],
}
# The library may try these again if they are interrupted.
TRIED_AGAIN = ("openat", "fchmod", "ftruncate", "fsync")
NOT_OPENED = Fault.SECRET_NOT_OPENED, Fault.INPUT_NOT_OPENED
NOT_READ = Fault.SECRET_NOT_READ, Fault.INPUT_NOT_READ
# A call of a run, its ordinal among those of its name, the loader's included, and its error.
Refusal = tuple[Call, int, str]

each_target = pytest.mark.parametrize("command, target", TARGETS)


def refusals(program: str, scenario: Scenario) -> Iterator[Refusal]:
    """Make a run without a failure, and yield each of its calls with each error."""
    with tempfile.NamedTemporaryFile() as log:
        left = scenario.run([*tracing(Path(log.name)), program])
        loading, own = split_calls(Path(log.name))
    assert left == scenario.fault_free()
    counts = Counter(call.name for call in loading)
    for call in own:
        counts[call.name] += 1
        yield from ((call, counts[call.name], error) for error in ERRORS.get(call.name, []))


def is_allowed(left: Left, scenario: Scenario, call: Call, error: str) -> bool:
    """Return whether a run may leave this. A failure of close is ignored, and so is EINVAL from fsync. If the query
    whether a stream is open fails, the stream counts as closed."""
    whole = scenario.fault_free()
    creates = "O_CREAT" in call.args
    if call.name in ("close", "fcntl") or (call.name, error) == ("fsync", "EINVAL"):
        return left == whole
    if error == "EINTR" and call.name in TRIED_AGAIN and left == whole:
        return True
    faults = {"openat": NOT_OPENED, "read": NOT_READ}.get("" if creates else call.name, (Fault.NOT_WRITTEN,))
    fault = next((each for each in faults if (left.status, left.message) == (each.status, each.line)), None)
    if fault is None or left in (scenario.untouched(fault), scenario.untouched(fault, OWNER_ONLY)):
        return fault is not None
    if scenario.target == STREAM:
        return left.files == {} and whole.output.startswith(left.output)
    (content, mode), wanted = left.files.get(OUTPUT, (b"", 0)), whole.files[OUTPUT]
    return (left.output, [*left.files], mode) == (b"", [OUTPUT], wanted[1]) and wanted[0].startswith(content)


def differences(program: str, scenario: Scenario, refusal: Refusal) -> list[str]:
    """Refuse this call, and return what is wrong with what the run leaves."""
    call, number, error = refusal
    with tempfile.NamedTemporaryFile() as log:
        failing = ["-e", f"trace={call.name}", "-e", f"inject={call.name}:error={error}:when={number}"]
        left = scenario.run(["strace", "-f", "-s", "0", *failing, "-o", log.name, program])
        was_injected = b"(INJECTED)" in log.read()
    what = f"{call.name} number {number} with {error}"
    if not was_injected:
        return [f"{what} is not refused"]
    return [] if is_allowed(left, scenario, call, error) else [f"{what}: {left}"]


@each_target
def test_refused_calls(
    cases: Cases, command: str, target: str, pytestconfig: pytest.Config, record_property: Callable[[str, object], None]
) -> None:
    needs("strace")
    share = int(pytestconfig.getoption("--share"))
    random = Random(int(pytestconfig.getoption("--seed")))
    scenario = scenario_of(cases, command, target, 40_000)
    every = [*refusals(cases.program, scenario)]
    kinds: Counter[tuple[str, str]] = Counter()
    differing = []
    for refusal in random.sample(every, len(every)):
        call, _, error = refusal
        if kinds[call.name, error] and random.randrange(share) > 0:
            continue
        kinds[call.name, error] += 1
        differing += differences(cases.program, scenario, refusal)
    assert kinds, "calls are refused"
    assert differing == [], "runs that leave what they may not"
    record_property("refused calls", (kinds.total(), len(every)))


@each_target
def test_short_transfers(cases: Cases, command: str, target: str) -> None:
    """Reads and writes that transfer fewer bytes than requested change no answer."""
    needs("cc")
    library, scenario = build_library(str(cases.folder), "short_transfers"), scenario_of(cases, command, target, 1_000)
    for most in (1, 100):
        left, cut = run_with(library, {"MOST_BYTES": str(most)}, partial(scenario.run, [cases.program]))
        assert left == scenario.fault_free(), f"the answer, {most} bytes at a time"
        assert {*cut} == {*b"rw"}, "the first letters of the calls that were cut short"


@pytest.mark.parametrize("number", (signal.SIGTERM, signal.SIGINT, signal.SIGHUP))
def test_signal_while_blocked(cases: Cases, number: signal.Signals) -> None:
    """The signal ends a run that waits for its input, and the output is as it was."""
    words = [cases.program, "encrypt", *by_file(cases.file(b"right\n")), "--output", cases.file(OLD)]
    with started(words, stdin=PIPE, stdout=PIPE, stderr=PIPE, bufsize=0) as child:
        # A pipe does not take all of this, so the run has read some of it then.
        assert child.stdin
        child.stdin.write(TEXT * 100_000)
        child.send_signal(number)
        assert child.communicate(timeout=SECONDS) == (b"", b""), "nothing is printed"
        assert child.returncode == -number, "the signal ends it"
    assert Path(words[-1]).read_bytes() == OLD, "the output is as it was"

"""Pytest's options, fixtures and summary for these tests, and what happens to skipped and failed ones.

With --require-all, a test that would be skipped because the machine lacks a tool or a privilege fails.
"""

import locale
import os
import shutil
import signal
import subprocess
import sys
import tempfile
from collections import Counter
from collections.abc import Generator, Iterator
from pathlib import Path
from typing import Any

import pytest

from lib.cases import Cases
from lib.needs import OF_ANOTHER_BUILD, TAKES_ROOT
from lib.paths import ROOT
from lib.processes import PLAIN

# Tests write into the repository only below bin/, which they leave out when they copy it.
os.environ["HYPOTHESIS_STORAGE_DIRECTORY"] = str(ROOT / "bin" / "hypothesis")
PROGRAM = ROOT / "bin" / "ansible-vault"
OUTCOMES = "outcomes"
# With --floors, at least this many tests of each part must run, and not many more, so that the floor is raised in time
# (OUTCOMES counts the tests without a marker listed here); and the tests must record at least the amounts in LEAST.
# Subtests count as one of these amounts.
FLOORS = {OUTCOMES: 3000, "fuzz": 4, "faults": 46, "allocations": 36, "valgrind": 68, "newcomer": 14, "planted": 1}
Report = pytest.TestReport | pytest.CollectReport
HAS_FAILED = pytest.StashKey[bool]()
LEAST = {"subtests": 90, "random requests": 200, "refused calls": 200, "refused allocations": 1200}
LEAST |= {"failing calls of git": 300, "commands in walks": 100, "hostile files": 80}


def seed_of_commit() -> int:
    """Return the abbreviated hash of HEAD as a number, or 1 if git knows no commit."""
    command = ["sh", "-c", "git rev-parse --short=8 HEAD || echo 1"]
    return int(subprocess.run(command, cwd=ROOT, capture_output=True, text=True).stdout, 16)


def pytest_addoption(parser: pytest.Parser) -> None:
    group = parser.getgroup("ansible-vault")
    add = group.addoption
    required = os.environ.get("REQUIRE_ALL") == "1"
    add("--program", type=Path, default=PROGRAM, help="the program; by default bin/ansible-vault")
    add("--require-all", action="store_true", default=required, help="a test that is skipped fails")
    add("--floors", action="store_true", help="a part with fewer tests than its floor fails")
    add("--seed", type=int, default=seed_of_commit(), metavar="N", help="of random tests; by default of the commit")
    add("--runs", type=int, default=400, metavar="N", help="how many random requests are made")
    add("--seconds", type=float, default=60, metavar="N", help="after which no further random request is made")
    add("--first", type=int, default=0, metavar="N", help="the number of the first random request")
    add("--share", type=int, default=100, metavar="N", help="one in N of the faults is tried, and one of each kind")
    help_text = "how many random command lines are compared with Ansible's tool; by default as many as take 20 seconds"
    add("--comparisons", type=int, default=0, metavar="N", help=help_text)


def pytest_sessionstart(session: pytest.Session) -> None:
    # A background job may ignore these signals, and its children inherit that.
    for number in (signal.SIGHUP, signal.SIGINT, signal.SIGQUIT, signal.SIGTERM):
        if signal.getsignal(number) == signal.SIG_IGN:
            signal.signal(number, signal.SIG_DFL)
    os.environ.update(PLAIN)
    # Other users must be able to read the tests' files, whatever the caller's umask.
    os.umask(0o022)
    # The companions, too, must run on the Python that runs the tests.
    if os.path.realpath(shutil.which("python3") or "") != os.path.realpath(sys.executable):
        os.environ["PATH"] = os.pathsep.join([os.path.dirname(sys.executable), os.environ["PATH"]])
    if not session.config.pluginmanager.has_plugin("subtests"):
        pytest.exit("pytest before 9 needs its plugin pytest-subtests", pytest.ExitCode.USAGE_ERROR)
    program = session.config.getoption("--program")
    if not program.is_file():
        pytest.exit(f"there is no {program}; `make` builds bin/ansible-vault", pytest.ExitCode.USAGE_ERROR)
    if locale.getpreferredencoding(False).upper() != "UTF-8":
        pytest.exit("this locale is not UTF-8: try `python3 -X utf8 -m pytest`", pytest.ExitCode.USAGE_ERROR)


def pytest_collection_modifyitems(items: list[pytest.Item]) -> None:
    """Run first what takes longest."""
    items.sort(key=lambda item: item.path.name not in ("newcomer.py", "gate.py"))


def missing_tool(raised: pytest.ExceptionInfo[BaseException] | None) -> str | None:
    """Return the command that could not be run because it is not on PATH, or None."""
    if raised is None or not isinstance(raised.value, FileNotFoundError):
        return None
    is_command = str(raised.traceback[-1].path).endswith("/subprocess.py")
    name = str(raised.value.filename)
    return name if is_command and "/" not in name and not shutil.which(name) else None


def reason_of(skipped: Report) -> str:
    assert isinstance(skipped.longrepr, tuple)
    return skipped.longrepr[2].removeprefix("Skipped: ")


def may_be_left_out(reason: str) -> bool:
    """Return whether --require-all accepts this reason to skip a test."""
    return reason == TAKES_ROOT and os.geteuid() != 0 or reason.startswith(OF_ANOTHER_BUILD)


def leave_out(report: Report, raised: pytest.ExceptionInfo[BaseException] | None, config: pytest.Config) -> None:
    """Skip what a missing tool prevents. With --require-all, fail what is skipped."""
    if tool := missing_tool(raised):
        report.outcome, report.longrepr = "skipped", (report.nodeid, 0, f"Skipped: without {tool}")
    if report.skipped and config.getoption("--require-all") and not may_be_left_out(reason_of(report)):
        reason = f"{reason_of(report)}: it is skipped, and --require-all is set"
        report.outcome, report.longrepr = "failed", reason


@pytest.hookimpl(hookwrapper=True)
def pytest_make_collect_report(collector: pytest.Collector) -> Generator[None, Any, None]:
    """Skip a module that needs a missing tool on import: many make their vaults with openssl."""
    report = (yield).get_result()
    leave_out(report, report.call.excinfo, collector.config)


@pytest.hookimpl(hookwrapper=True)
def pytest_runtest_makereport(item: pytest.Function, call: pytest.CallInfo[None]) -> Generator[None, Any, None]:
    report = (yield).get_result()
    leave_out(report, call.excinfo, item.config)
    if report.failed:
        item.stash[HAS_FAILED] = True
        if "tmp_path" in item.funcargs:
            report.sections.append(("files", f"kept in {item.funcargs['tmp_path']}"))


def pytest_assertrepr_compare(op: str, left: object, right: object) -> list[str] | None:
    """Of two tuples, show each part that differs, by its name or number. pytest would show the start of both."""
    if op != "==" or not (isinstance(left, tuple) and isinstance(right, tuple)) or len(left) != len(right):
        return None
    names = getattr(left, "_fields", range(len(left)))
    differing = [f"{name}: {one!r} != {other!r}" for name, one, other in zip(names, left, right) if one != other]
    return ["two tuples differ in", *differing]


def reports_of(config: pytest.Config, *kinds: str) -> list[Any]:
    terminal = config.pluginmanager.get_plugin("terminalreporter")
    return [each for kind in kinds for each in terminal.getreports(kind)]


def ends_of_tests(config: pytest.Config) -> list[Any]:
    """Return the reports of finished tests, and of modules that could not be collected."""
    reports = reports_of(config, "passed", "failed", "error", "skipped")
    return [each for each in reports if each.when == "call" or not each.passed]


def part_of(report: Report) -> str:
    """Return the part that a report counts for. Modules that could not be collected have no markers."""
    return next((part for part in FLOORS if part in getattr(report, "keywords", ())), OUTCOMES)


def too_few(config: pytest.Config) -> list[str]:
    """Return a message for each floor that was not reached, or is too low; or none if the run skipped what it could not
    run."""
    ends = ends_of_tests(config)
    is_partial = any(each.skipped and not may_be_left_out(reason_of(each)) for each in ends)
    if is_partial or not config.getoption("--floors"):
        return []
    made, _ = amounts(ends)
    made.update(part_of(each) for each in ends if not each.skipped)
    made["subtests"] = len(reports_of(config, "subtests passed"))
    low = [f"{part}: {made[part]}, so raise its floor" for part, least in FLOORS.items() if made[part] > least * 1.2]
    floors = FLOORS | LEAST
    return low + [f"{what}: {made[what]}, of at least {least}" for what, least in floors.items() if made[what] < least]


@pytest.hookimpl(tryfirst=True)
def pytest_sessionfinish(session: pytest.Session) -> None:
    is_worker = hasattr(session.config, "workerinput")
    if not is_worker and too_few(session.config):
        session.exitstatus = pytest.ExitCode.TESTS_FAILED


def amounts(ends: list[Any]) -> tuple[Counter[str], Counter[str]]:
    """Add up what the tests recorded, by name: how much they did, and how much they should have done."""
    made, asked = Counter[str](), Counter[str]()
    for what, (done, wanted) in (each for end in ends for each in getattr(end, "user_properties", [])):
        made[what] += done
        asked[what] += wanted
    return made, asked


def pytest_terminal_summary(terminalreporter: Any, config: pytest.Config) -> None:
    """Print the skipped tests and the amounts that the tests recorded. The last line counts the tests."""
    if config.option.collectonly:
        return
    ends, failures = ends_of_tests(config), too_few(config)
    made, asked = amounts(ends)
    counts = Counter(each.outcome for each in ends) + Counter(failed=len(failures))
    lines = [f"skipped: {each.nodeid}: {reason_of(each)}" for each in ends if each.skipped]
    lines += [f"seed: {config.getoption('--seed')}", *(f"{what}: {made[what]} of {asked[what]}" for what in made)]
    lines += [f"FAILED {failure}" for failure in failures]
    lines += [", ".join(f"{counts[what]} {what}" for what in ("passed", "failed", "skipped"))]
    terminalreporter.write_line("\n".join(lines))


@pytest.fixture(scope="session")
def program(request: pytest.FixtureRequest) -> str:
    return str(request.config.getoption("--program").resolve())


@pytest.fixture
def tmp_path(request: pytest.FixtureRequest) -> Iterator[Path]:
    """Make a directory that everybody may enter, unlike pytest's own `tmp_path`. Keep it if the test fails."""
    folder = Path(tempfile.mkdtemp(prefix="ansible-vault-test-"))
    folder.chmod(0o755)
    yield folder
    if not request.node.stash.get(HAS_FAILED, False):
        subprocess.run(["chmod", "-R", "u+rwX", str(folder)], check=True)
        shutil.rmtree(folder)


@pytest.fixture
def cases(program: str, tmp_path: Path) -> Cases:
    """Return the runner of the program, which creates its files in `tmp_path`."""
    return Cases(program, tmp_path)

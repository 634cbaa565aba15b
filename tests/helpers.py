"""How pytest ends under `conftest.py` and `pytest.ini`."""

import os
import re
import shutil
import sys
from pathlib import Path

import pytest

from conftest import FLOORS, LEAST
from lib.paths import ROOT
from lib.processes import run_text

# Tests, and how each ends with --require-all. Without it, what is skipped stays so.
SAMPLE = """\
import os, pytest, subprocess, threading
from lib.needs import TAKES_ROOT
def test_passed(tmp_path): pass
def test_failed(tmp_path): one = threading.Thread(target=lambda: 1 / 0); one.start(); one.join()
def test_failed_tuples(): assert (1, "a" * 999, 2) == (1, "a" * 999, 3)
def test_failed_skipped(): pytest.skip("why")
def test_failed_without_tool(): subprocess.run(["no-such-tool"])
def test_failed_without_file(): open("no-such-file")
def test_skipped(): os.geteuid = lambda: 1; pytest.skip(TAKES_ROOT)
"""
# With --floors, each that is not reached is a failure.
COUNTS = {
    "-v": "1 passed, 3 failed, 3 skipped",
    "--floors --require-all": f"1 passed, {5 + len(FLOORS | LEAST)} failed, 1 skipped",
}


@pytest.mark.parametrize("options", COUNTS)
def test_outcomes(program: str, tmp_path: Path, options: str) -> None:
    """Run pytest on a file of tests, in a copy of ours."""
    shutil.copytree(ROOT / "tests", tmp_path / "tests")
    shutil.copy(ROOT / "pytest.ini", tmp_path)
    (tmp_path / "tests" / "sample.py").write_text(SAMPLE)
    ours = {name: value for name, value in os.environ.items() if not name.startswith(("PYTEST_", "REQUIRE_ALL"))}
    words = [f"--program={program}", "--verbose", *options.split(), "tests/sample.py"]
    command = [sys.executable, "-B", "-m", "pytest", *words]
    done = run_text(command, cwd=tmp_path, env=ours | {"TMPDIR": str(tmp_path)})
    ends = re.findall(r"^tests/sample\.py::test_([a-z]+)\w* ([A-Z]+)", done.stdout, re.MULTILINE)
    assert options == "-v" or [wanted.upper() for wanted, _ in ends] == [end for _, end in ends], done.stdout
    assert (done.returncode, len(ends), f"\n{COUNTS[options]}\n" in done.stdout) == (1, 7, True), done.stdout
    assert " 2: 2 != 3\n" in done.stdout, "the parts of tuples that differ"
    assert Path(re.findall(r"^kept in (.*)$", done.stdout, re.MULTILINE)[0]).is_dir(), "a folder is kept"

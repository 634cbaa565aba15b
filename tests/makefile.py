"""The rules of the Makefile: what each goal builds, and when that is built again. They run in a folder of their own,
with stand-ins for the sources and for the prover."""

import re
import runpy
import shutil
import subprocess
from pathlib import Path

import pytest

from lib.installed import run_make
from lib.paths import ROOT
from lib.scripts import searched_first, write_script

[PHONY] = re.findall(r"^\.PHONY: ((?:.*\\\n)*.*)$", (ROOT / "Makefile").read_text(), re.MULTILINE)
GOALS = {*PHONY.replace("\\\n", "").split()} - {"FORCE"}
PROGRAM = "bin/ansible-vault"
# The crates of the programs that are built.
OURS = "ansible_vault"
FAILURES = "vault_allocation_failures"
BENCH = "vault_bench"
CRATES = [OURS, FAILURES, BENCH]
SOURCES = ["crates.txt", *(f"crates/vault_aes/{name}" for name in ("src/laws.rt", "specs/A.antt", "proofs/A/B.antt"))]
# What goals build before their own commands. Others build the program, or nothing.
BUILDS = {"test": {OURS, FAILURES}, "check": {OURS, FAILURES}, "bench": {OURS, BENCH}}
BUILDS |= dict.fromkeys(["packages", "uninstall", "portable", "lint", "fresh-machine", "clean"], set[str]())
# It takes the place of the tool that runs the prover, and logs what the prover is asked.
ASKING = 'shift 2; echo "${PWD##*/}: $*" >> "${0%/*}/../log"; [ ! -e during ] || . ./during'


@pytest.fixture
def folder(tmp_path: Path) -> Path:
    """Return a folder with the Makefile."""
    for name in ("Makefile", "CHANGELOG.md"):
        shutil.copy(ROOT / name, tmp_path)
    write_script(tmp_path / "stand-ins" / "rt", "exit 1")
    for name in ("missing_packages", "releases"):
        write_script(tmp_path / "tools" / name, "")
    write_script(tmp_path / "tools" / "progress.py", ASKING)
    for name in CRATES:
        write_script(tmp_path / f"crates/{name}/out/{name}", f"echo {name}")
    for path in [*SOURCES, *(f"crates/{name}/{part}/A" for name in CRATES for part in ("src", "specs", "proofs"))]:
        (tmp_path / path).parent.mkdir(parents=True, exist_ok=True)
        (tmp_path / path).touch()
    return tmp_path


def make(folder: Path, *words: str) -> subprocess.CompletedProcess[str]:
    environment = searched_first(folder / "stand-ins")
    environment.pop("CPU", None)
    return run_make(str(ROOT / PROGRAM), *words, at=folder, env=environment)


def asked(folder: Path, *words: str) -> list[str]:
    """Run make, which must succeed, and return what it asked of the prover."""
    (folder / "log").write_text("")
    done = make(folder, *words)
    assert done.returncode == 0, done.stderr
    return (folder / "log").read_text().splitlines()


def test_built_again(folder: Path) -> None:
    """The program is built again if any source or the processor changes, and only then. If the prover fails, so does
    make, and it leaves no program."""
    build, newer = ([f"{OURS}: run {cpu}-- --version"] for cpu in ("", "--cpu x86-64-v3 "))
    assert asked(folder, PROGRAM) == build, "the first build"
    assert asked(folder, PROGRAM) == [], "nothing has changed"
    for source in SOURCES:
        (folder / source).touch()
        assert asked(folder, PROGRAM) == build, f"{source} has changed"
        assert asked(folder, PROGRAM) == [], f"{source} has not changed again"
    assert asked(folder, PROGRAM, "CPU=x86-64-v3") == newer, "another processor"
    assert asked(folder, PROGRAM) == [], "the same processor"
    assert asked(folder, PROGRAM, "CPU=") == build, "the first processor again"
    (folder / PROGRAM).unlink()
    (folder / f"crates/{OURS}/during").write_text("exit 1")
    assert make(folder, PROGRAM).returncode == 2, "make fails as the prover does"
    assert not (folder / PROGRAM).exists(), "it leaves no program"


@pytest.mark.parametrize("during, built", [(":", []), ("sleep 0.02; touch crates.txt", [OURS, FAILURES])])
def test_gate(folder: Path, during: str, built: list[str]) -> None:
    """`make check` takes the programs from the gate, unless a source has changed since."""
    (folder / "during").write_text(during)
    tests = write_script(folder / "pytest", f"echo tested >> '{folder}/log'")
    lines = [line.partition(" --")[0] for line in asked(folder, "check", f"PYTEST={tests}")]
    assert lines == [f"{folder.name}: ci", *(f"{name}: run" for name in built), "tested"]


def test_goals(folder: Path) -> None:
    """Each goal first builds what it uses, even if a file has its name, or uses the named program; `make test` leaves
    out no test."""
    for goal in GOALS:
        (folder / goal).touch()
        built = {*re.findall(r"/bin/(\w+)\.log\S* rt run", make(folder, "-n", goal, "PARTIAL=no").stdout)}
        assert built == BUILDS.get(goal, {OURS}), goal
        is_used = OURS in built and goal not in ("all", "mutants")
        assert ("/another" in make(folder, "-n", goal, "PARTIAL=yes", "PROGRAM=/another").stdout) == is_used, goal
    assert re.search("pytest .* -m '' .*--floors", make(folder, "-n", "test").stdout)


def test_recorded_releases(tmp_path: Path) -> None:
    """A version needs the record of a run of `make releases` on the same companions, tests and testkit."""
    (tmp_path / "tools").mkdir()
    tool = shutil.copy(ROOT / "tools" / "releases", tmp_path / "tools")
    files = [tmp_path / name for name in ("companions/a", "tests/b/c", "testkit/d")]
    for file in files:
        file.parent.mkdir(parents=True)
        file.write_text("as tested\n")
    record = tmp_path / "tools" / "releases.txt"
    refusal = "CHANGELOG.md has version 2.0, but releases.txt is of other tests: run make releases\n"

    def check(what: str, heading: str, refused: str) -> None:
        (tmp_path / "CHANGELOG.md").write_text(f"# Changes\n\n{heading}\n\n## 1.0, 2026-01-01\n")
        done = subprocess.run([tool, "--recorded"], capture_output=True, text=True)
        assert (done.returncode, done.stderr) == (int(bool(refused)), refused), what

    check("a version without a record", "## 2.0, 2026-02-02", refusal)
    check("changes since a version", "## Since 1.0", "")
    record.write_text(runpy.run_path(tool)["checksum"]() + "\nbullseye: 50 passed, 0 failed, 0 skipped\n")
    check("a version with its record", "## 2.0, 2026-02-02", "")
    for file in files:
        file.write_text("changed\n")
        check(f"a change of {file}", "## 2.0, 2026-02-02", refusal)
        file.write_text("as tested\n")
        moved = file.rename(file.with_name("moved"))
        check(f"another name of {file}", "## 2.0, 2026-02-02", refusal)
        moved.rename(file)
    check("all as it was", "## 2.0, 2026-02-02", "")

"""The tools of the gate: failures reach the exit status and the counts, and lints and tests catch planted faults."""

import ast
import os
import re
import runpy
import shutil
from pathlib import Path
from typing import NamedTuple

import pytest

from lib.installed import run_make
from lib.needs import needs
from lib.paths import ROOT
from lib.processes import run_text
from lib.scripts import searched_first, write_script


class Gate(NamedTuple):
    """What `make check` prints, and its status; and then the status of .ci/run, and its last line."""

    printed: str
    status: int
    ends_with: int
    last_line: str
    can_install: bool = True


GATES = {
    "some tests fail": Gate(
        printed="12 passed, 0 failed\\n8 passed, 2 failed, 1 skipped",
        status=2,
        ends_with=2,
        last_line="20 passed, 2 failed, 1 skipped",
    ),
    "there are no tests": Gate(
        printed="0 passed, 0 failed",
        status=0,
        ends_with=1,
        last_line="0 passed, 1 failed, 0 skipped",
    ),
    "packages cannot be installed": Gate(
        printed="12 passed, 0 failed",
        status=0,
        ends_with=1,
        last_line="12 passed, 1 failed, 0 skipped",
        can_install=False,
    ),
    "all tests pass": Gate(
        printed="12 passed, 0 failed",
        status=0,
        ends_with=0,
        last_line="12 passed, 0 failed, 0 skipped",
    ),
}
# Takes the place of dpkg-query: zsh was removed, but not purged.
REMOVED = r"""printf "$(printf %s "${2#*=}" | sed 's/${Package}/zsh/; s/${db:Status-Status}/config-files/')" """


def test_progress(tmp_path: Path) -> None:
    """What fails is printed, and its counts come last."""
    said = "its own lines\nrt: vault_aes proved\n11 passed, 1 failed\n"
    command = [str(ROOT / "tools/progress.py"), str(tmp_path / "log"), "sh", "-c", f"printf '{said}'; exit 2"]
    done = run_text(command)
    assert done.returncode == 2, "the status of what it runs"
    assert (tmp_path / "log").read_text() == said, "the whole log"
    assert "    its own lines\n" in done.stdout and done.stdout.endswith("\n11 passed, 1 failed\n"), "what it prints"


@pytest.mark.parametrize("gate", GATES.values(), ids=GATES)
def test_ci(tmp_path: Path, gate: Gate) -> None:
    """Stand-ins take the place of `make`, `apt-get` and tools/missing_packages."""
    (tmp_path / ".ci").mkdir()
    shutil.copy(ROOT / ".ci" / "run", tmp_path / ".ci")
    write_script(tmp_path / "tools" / "missing_packages", "echo acl zsh")
    write_script(tmp_path / "make", f"echo \"$REQUIRE_ALL $*\"; printf '{gate.printed}\\n'; exit {gate.status}")
    write_script(tmp_path / "apt-get", "exit 0" if gate.can_install else "exit 100")
    run, environment = str(tmp_path / ".ci" / "run"), searched_first(tmp_path)
    done = run_text([run], env=environment)
    lines = done.stdout.splitlines()
    assert lines[0] == "1 check CPU= PARTIAL=yes", "what it asks of make"
    assert lines[-1] == gate.last_line, "the counts"
    assert done.returncode == gate.ends_with, "its status"
    (tmp_path / "bin" / "check.log").unlink()
    asked = run_text([run, "--help"], env=environment)
    assert asked.returncode == 2, "it takes no arguments"
    assert asked.stdout == "" and not [*tmp_path.glob("bin/check.log")], "it starts nothing"


def test_missing_packages(program: str, tmp_path: Path) -> None:
    """One line names them before any test."""
    write_script(tmp_path / "dpkg-query", REMOVED)
    done = run_make(program, "test", "PYTEST=true", "PARTIAL=no", env=searched_first(tmp_path))
    assert done.returncode == 2, "it fails"
    assert done.stdout == "", "no test is run"
    assert " zsh " in done.stderr.splitlines()[0], "the package is named"


# What tools/lint runs, besides other programs.
LINT = [f"tools/{name}" for name in ("lint", "import_order.py", "references.py", "contracts.py", "dead_names")]
LINT += ["companions/ansible_vault_companions/__init__.py", "crates.txt"]
QUOTES = '"' * 3
# Files in which every lint finds a fault, and what it says of each.
FAULTY = {
    f"{folder}/wrong.py": ('NUMBER: int = ""\n', f"{folder}/wrong.py:1: error: Incompatible types")
    for folder in ("bench", "companions", "testkit", "tests", "tools")
}
FAULTY |= {
    "tools/layout.py": ("A = [1,2]\n", "+A = [1, 2]\n"),
    "tools/layout": ("#!/usr/bin/env python3\nB = [1,2]\n", "+B = [1, 2]\n"),
    "tools/unused.py": ("import os.path\n", "'os.path' imported but unused"),
    "tools/long.py": (f"# {'a' * 119}\n", "tools/long.py:1: too long"),
    "tools/unquoted": ("#!/bin/sh\necho $1\n", "SC2086"),
    "man/a.1": (".Sh NAME\n", "man/a.1:1:"),
    "crates/a/src/long.rt": (f"// {'a' * 98}\n", "crates/a/src/long.rt:1: too long"),
    "crates/a/src/unused.rt": ("fn unused() {}\n", "crates/a/src/unused.rt: unused is mentioned nowhere else"),
    "crates/vault_core/src/opens.rt": (
        "use std::fs::Files;\n// fs::open\nuse std::fs;\n",
        "crates/vault_core/src/opens.rt:3: unrecorded: fs\n",
    ),
    "crates/vault_core/src/syncs.rt": ("const SYNCED: () = f.sync_all();\n", "syncs.rt:1: unrecorded: sync_all(\n"),
    "crates/a/must-fail/stale.edit": ("file: src/unused.rt\nold: gone\n", "stale.edit: not once in its file: gone"),
    "tests/planted/faults.toml": (
        '[[fault]]\nfile = "man/a.1"\nold = "gone"\n',
        "faults.toml: not once in man/a.1: gone",
    ),
}
ORDER = "## The companions\n\n| `files` | read files |\n| `git` | asks git |\n"
FAULTY |= {
    "docs/architecture.md": (f"# A page\n\n{ORDER}", ""),
    "companions/shared/other.py": ("NUMBER = 1\n", "shared/other.py: other is in no line of docs/architecture.md"),
    "companions/shared/files/up.py": (
        "def up() -> None:\n    import ansible_vault_companions.git.up\n",
        "companions/shared/files/up.py:2: it imports git, which is below files in docs/architecture.md",
    ),
}
DEAD = ": there is no "
# The same for paths and names. Each file also has some that exist.
FAULTY |= {
    "README.md": ("`long` and `os.path` are in `src/unused.rt`, not in `a.rt`.\n", f"README.md{DEAD}a.rt"),
    "tests/page.py": (f"{QUOTES}Like tools/long.py and tools/a.{QUOTES}\n", f"tests/page.py{DEAD}tools/a"),
    "tests/module.py": ("# `tests.long` is older than `tests.wrong`.\n", f"tests/module.py{DEAD}tests.long"),
    "tests/plain.py": ("A = 1\n# `unused` was `a_module`.\n", f"tests/plain.py{DEAD}a_module"),
    "tools/comment": ("#!/bin/sh\n# See `must-fail/` and `b.toml`.\n", f"tools/comment{DEAD}b.toml"),
    "crates/a/src/b.rt": ("// `unused` is no `Fault::unused`.\n", f"crates/a/src/b.rt{DEAD}Fault::unused"),
    "crates/a/specs/B.antt": ("-- man/*.1 are pages, man/*.2 are none.\n", f"crates/a/specs/B.antt{DEAD}man/*.2"),
}
# What is said of nothing by the lints that look at files of several kinds.
NOTHING = ["there are no names in .rt files", "there are no names in .antt files", "there are no edits"]
NOTHING += ["there are no faults in files", "calls on files: there are no files to check"]
NOTHING += ["only 0 references in pages", "only 0 references in sources"]


# The programs that it runs besides git.
LINTERS = {"black", "mandoc", "mypy", "pyflakes3", "shellcheck"}


def put_repository(folder: Path, texts: dict[str, str]) -> None:
    """Make a repository with these files, and with what tools/lint runs."""
    for name, text in texts.items():
        (folder / name).parent.mkdir(parents=True, exist_ok=True)
        (folder / name).write_text(text)
    for words in (["init", "--quiet"], ["add", "."]):
        run_text(["git", *words], cwd=folder, check=True)
    for name in LINT:
        (folder / name).parent.mkdir(parents=True, exist_ok=True)
        shutil.copy(ROOT / name, folder / name)


def lint(folder: Path, texts: dict[str, str]) -> str:
    """Lint a repository with these files, and return what is printed."""
    needs("git", *LINTERS)
    put_repository(folder, texts)
    done = run_text([str(folder / "tools" / "lint")])
    assert done.returncode == 1
    return done.stdout + done.stderr


def test_lint(tmp_path: Path) -> None:
    """Each lint fails, and names each fault."""
    printed = lint(tmp_path, {name: text for name, (text, _) in FAULTY.items()})
    assert "\nlint: 0 passed, " in printed
    assert [said for _, said in FAULTY.values() if said not in printed] == [], printed
    assert printed.count(DEAD) == sum(DEAD in said for _, said in FAULTY.values()), printed


def test_lint_without_tools(tmp_path: Path) -> None:
    """Each tool that is not installed is named, and its lint fails."""
    needs("git")
    put_repository(tmp_path / "repository", {name: text for name, (text, _) in FAULTY.items()})
    (tmp_path / "few").mkdir()
    for name in ("git", "python3"):
        (tmp_path / "few" / name).symlink_to(str(shutil.which(name)))
    done = run_text([str(tmp_path / "repository/tools/lint")], env=os.environ | {"PATH": str(tmp_path / "few")})
    missing = re.findall(r"^(\w+) is not installed$", done.stdout, re.MULTILINE)
    assert {*missing} == LINTERS, done
    assert (done.returncode, "\nlint: 0 passed, " in done.stdout) == (1, True), done


def test_lint_of_nothing(tmp_path: Path) -> None:
    """Each lint fails if it has nothing to check."""
    printed = lint(tmp_path, {})
    assert "\nlint: 0 passed, " in printed
    assert [said for said in NOTHING if said not in printed] == [], printed


# Statements, and what some of their mutants change.
MUTANTS = {
    "if a and not b: c()": ["a and (not b) -> True", "a and (not b) -> not b", "not b -> b", "c() -> pass"],
    "a < b": ["a < b -> a <= b"],
    "return a + 1": ["a + 1 -> a", "a + 1 -> None", "1 -> 2"],
    "a(b, c=d)": ["a(b, c=d) -> a(b)"],
    "a(); b()": ["a() -> pass", "b() -> pass"],
    "with a(), b() as c: d()": ["a() -> __import__('contextlib').nullcontext()"],
    "try: a()\nexcept (B, C): d()": ["(B, C) -> (C,)", "(B, C) -> (B,)"],
    "if os.path.lexists(a): b()": ["os.path.lexists -> os.path.exists"],
    "a = os.lstat(b)": ["os.lstat -> os.stat"],
}


@pytest.mark.parametrize("code", MUTANTS)
def test_mutants(code: str) -> None:
    """tools/plant_faults makes these of a function with this code."""
    lines = "".join(f"    {line}\n" for line in code.split("\n"))
    tree = ast.parse(f"def f():\n{lines}")
    planting = runpy.run_path(str(ROOT / "tools" / "plant_faults"))
    names = [name.removeprefix("f: ") for name, *_ in planting["mutants_of"](tree)]
    assert [wanted for wanted in MUTANTS[code] if wanted not in names] == [], names


@pytest.mark.planted
@pytest.mark.timeout(3600)
def test_planted(program: str, request: pytest.FixtureRequest) -> None:
    """This runs beside the proofs of newcomer.py, which leave processors idle."""
    words = [f"--program={program}", "--faults=4", "--mutants=12", f"--seed={request.config.getoption('--seed')}"]
    done = run_text([f"{ROOT}/tools/plant_faults", *words, "--limit=150", "--jobs=3"], timeout=None)
    assert done.returncode == 0, done.stdout + done.stderr

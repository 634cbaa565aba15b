"""Which slow modules a run of each companion imports, and what is imported before signals have their actions.

Most of a start is imports, and git starts some companions for each version of a file. So one import more must be seen.
"""

import sys
from collections import Counter

import pytest

from companion_cases import CHECK, EDIT, HOOK, MERGE, ROTATE, TEXTCONV, WITH, Place, block, sealed
from companion_cases.repository import BASE, OURS, THEIRS, add_and_commit, under_git
from lib.needs import needs, needs_pyyaml
from lib.paths import ROOT

OWN = "ansible_vault_companions"
# Modules of others that take a millisecond or more.
SLOW = {"argparse", "concurrent.futures", "configparser", "dataclasses", "json", "secrets", "subprocess", "tempfile"}
SLOW |= {"typing", "yaml"}
OLD, NEW = "--vault-password-file=../secrets/old", "--new-vault-password-file=../secrets/new"
ALL_FILES = "concurrent.futures dataclasses json subprocess tempfile typing yaml"
# Those of each command line, besides `argparse`.
RUNS = {
    f"{WITH} view {OLD} vault.yml": "subprocess",
    f"{TEXTCONV} {OLD} vault.yml": "subprocess",
    f"{TEXTCONV} {OLD} plain.yml": "typing",
    f"{TEXTCONV} {OLD} value.yml": "subprocess typing yaml",
    f"{TEXTCONV} {OLD} values.yml": "concurrent.futures subprocess typing yaml",
    f"{CHECK} {OLD} .": ALL_FILES,
    f"{ROTATE} {OLD} {NEW} .": ALL_FILES,
    f"{EDIT} {OLD} vault.yml": "dataclasses subprocess tempfile typing",
    f"{MERGE} {OLD} base.yml vault.yml theirs.yml vault.yml": "subprocess tempfile typing",
    HOOK: "subprocess typing yaml",
}


def test_names_of_modules() -> None:
    """A name leads to one module, whatever its package is."""
    modules = (ROOT / "companions").rglob("[!_]*.py")
    numbers = Counter(module.stem for module in modules)
    assert len(numbers) > 80, "the modules are found"
    assert [name for name, number in numbers.items() if number > 1] == []


def list_imports(place: Place, *words: str) -> set[str]:
    """Return the modules that Python imports."""
    done = place.run(sys.executable, "-X", "importtime", *words, EDITOR="true")
    assert done.returncode == 0, done.stderr
    return {line.rpartition("|")[2].strip() for line in done.stderr.splitlines() if line.startswith("import time:")}


@pytest.mark.parametrize("line", RUNS)
def test_slow_imports(place: Place, line: str) -> None:
    needs_pyyaml()
    needs("git")
    under_git(place, "vault.yml diff=ansible-vault\n")
    add_and_commit(place)
    place.put("base.yml", sealed("old", BASE))
    place.put("vault.yml", sealed("old", OURS))
    place.put("theirs.yml", sealed("old", THEIRS))
    place.put("plain.yml", BASE)
    place.put("value.yml", block("old"))
    place.put("values.yml", block("old") + block("old", BASE))
    place.run("git", "add", "value.yml")
    companion, *words = line.split()
    path = place.tools / companion
    # What Python imports for itself differs from machine to machine, and what argparse does, from release to release.
    options = path.read_text().partition("\n")[0].split()[-1]
    of_python = list_imports(place, options, "-c", "import argparse; argparse.ArgumentParser()")
    found = list_imports(place, options, str(path), *words)
    assert any(name.startswith(f"{OWN}.") for name in found), "its own modules are found"
    assert sorted(SLOW & found - of_python) == [name for name in RUNS[line].split() if name not in of_python]


def test_start(place: Place) -> None:
    """Before signals have their actions, Python answers Ctrl-C with a traceback, so next to nothing is imported."""
    code = f"import sys; sys.path.insert(0, {str(place.companions)!r}); from {OWN} import startup"
    found = list_imports(place, "-ISB", "-c", f"{code}; startup.prepare_process()")
    of_python = list_imports(place, "-ISB", "-c", "import collections.abc, os, signal, __future__")
    assert found - of_python == {OWN, f"{OWN}.startup", f"{OWN}.signals"}

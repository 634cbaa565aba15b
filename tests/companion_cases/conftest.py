"""Fixtures for the tests of the companions."""

import compileall
import shutil
import subprocess
import tempfile
from collections.abc import Iterator
from pathlib import Path

import pytest

from companion_cases import COMPANIONS, GIT_CONFIGURATION, Companions, Place
from companion_cases.forks import Forks
from companion_cases.repository import AUTHOR, repository
from lib.ansible_runs import AnsibleRuns
from lib.needs import needs, needs_ansible


@pytest.fixture(scope="session")
def copies(program: str) -> Iterator[Path]:
    """The program and the compiled companions. Every user may read these copies, wherever the repository is."""
    with tempfile.TemporaryDirectory(prefix="ansible-vault-tools-") as folder:
        companions = shutil.copytree(COMPANIONS, Path(folder, "companions"))
        compileall.compile_dir(companions, quiet=1)
        shutil.copy(program, f"{folder}/ansible-vault")
        subprocess.run(["chmod", "-R", "go=rX", folder], check=True)
        yield Path(folder)


@pytest.fixture(scope="session")
def forks(copies: Path) -> Iterator[Forks]:
    with Forks(copies / "companions") as server:
        yield server


@pytest.fixture
def cases(copies: Path, tmp_path: Path) -> Companions:
    """The companions and the program, and as many places for them as a test needs."""
    return Companions(copies, tmp_path)


@pytest.fixture
def place(cases: Companions) -> Place:
    """A tree of files, with the companions and the program on PATH, and password files."""
    return cases.place()


@pytest.fixture(scope="session")
def ansible_runs() -> Iterator[AnsibleRuns]:
    """Ansible's tool. A test does all it can without it before `request.getfixturevalue`, which may skip the test."""
    with tempfile.TemporaryDirectory(prefix="ansible-vault-home-") as home:
        with AnsibleRuns(needs_ansible(), Path(home)) as runs:
            yield runs


@pytest.fixture
def git() -> None:
    needs("git")


@pytest.fixture
def own_repository(git: None, tmp_path: Path, monkeypatch: pytest.MonkeyPatch) -> Path:
    """A repository that is the current directory. git knows an author there, and none of the user's settings."""
    # It is not in the repository, where tests remove all files.
    system = tmp_path / "gitconfig"
    system.write_text(GIT_CONFIGURATION)
    for name, value in (AUTHOR | {"GIT_CONFIG_GLOBAL": "/dev/null", "GIT_CONFIG_SYSTEM": str(system)}).items():
        monkeypatch.setenv(name, value)
    folder = repository(tmp_path / "repository", "merge")
    monkeypatch.chdir(folder)
    return folder

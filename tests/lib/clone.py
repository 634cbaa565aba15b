"""A fresh clone of this repository, and the commands that somebody types there."""

import os
import subprocess
from pathlib import Path

import pytest

from lib.needs import needs, needs_checkout
from lib.paths import ROOT
from lib.processes import run_text

# Seconds. If `rt` has cached nothing, as after a gate from scratch, the first build proves everything again.
PROVING = 3600


def git(*words: str, at: Path = ROOT) -> str:
    identity = ["-c", "user.name=nobody", "-c", "user.email=nobody@example.org"]
    return subprocess.run(["git", *identity, *words], cwd=at, check=True, capture_output=True, text=True).stdout.strip()


def cloned(tmp_path_factory: pytest.TempPathFactory) -> Path:
    """Clone what git tracks here, including changes that are not committed yet."""
    needs("git")
    needs_checkout()
    folder = tmp_path_factory.mktemp("newcomer") / "ansible-vault"
    # This refreshes the index. If only the time of a file has changed, `git stash create` fails otherwise.
    git("status", "--short")
    state = git("stash", "create") or git("rev-parse", "HEAD")
    git("clone", "--quiet", "--no-checkout", str(ROOT), str(folder))
    git("checkout", "--quiet", "--detach", state, at=folder)
    return folder


def typed(command: str, folder: Path, **variables: str) -> str:
    """Run a command in a shell without the variables of this test run. Return what it prints. It must succeed."""
    ours = ("MAKE", "PYTEST_", "REQUIRE_")
    kept = {name: value for name, value in os.environ.items() if not name.startswith(ours)}
    words = ["bash", "-O", "expand_aliases", "-c", command]
    done = run_text(words, cwd=folder, env=kept | variables, stderr=subprocess.STDOUT, timeout=None)
    assert done.returncode == 0, f"{command}\n{done.stdout}"
    return done.stdout

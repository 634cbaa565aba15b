"""Skip tests that need something this machine lacks. With --require-all, they fail."""

import os
import shutil
import subprocess
from importlib.util import find_spec

import pytest

from lib.ansible import ansible_vault
from lib.paths import ROOT

# The reasons to skip a test that --require-all accepts: the user is not root, or the stored counts are for another kit
# or Python.
TAKES_ROOT = "it takes the rights of root"
OF_ANOTHER_BUILD = "its counts are of another build"


def needs(*tools: str) -> None:
    """Skip the test unless all these programs are on PATH."""
    missing = [tool for tool in tools if not shutil.which(tool)]
    if missing:
        pytest.skip(f"without {', '.join(missing)}")


def needs_checkout() -> None:
    """Skip the test outside a git checkout, or without git."""
    needs("git")
    command = ["git", "-C", str(ROOT), "ls-files", "--error-unmatch", "Makefile"]
    if subprocess.run(command, capture_output=True).returncode != 0:
        pytest.skip("without a checkout of git")


def needs_root() -> None:
    if os.geteuid() != 0:
        pytest.skip(TAKES_ROOT)


def needs_pyyaml() -> None:
    if find_spec("yaml") is None:
        pytest.skip("without PyYAML")


def needs_ansible() -> str:
    """Return the path of Ansible's own tool, or skip the test without it."""
    path = ansible_vault()
    if path is None:
        pytest.skip("without Ansible's own ansible-vault (Debian's package ansible-core)")
    return path

"""Find Ansible's own tool: the path in the environment variable ANSIBLE_VAULT, or the first tool on PATH whose version
says that it is Ansible's."""

import functools
import os
import re
import shutil

from lib.processes import PLAIN, run_text

# Ansible's tool has the second name where this project's package is installed.
NAMES = ("ansible-vault", "ansible-vault-original")
# The start of its version. Release 2.10 does not print `core`, but names a configuration file in the second line.
VERSION = re.compile(r"ansible-vault (?:\[core |(?=.*\n  config file))(\d+)\.(\d+)")


@functools.cache
def release_of(path: str) -> tuple[int, int] | None:
    """Return the release, or None if this is another tool. Raise RuntimeError if the tool fails, since a broken tool is
    no reason to skip a test."""
    done = run_text([path, "--version"], env=os.environ | PLAIN)
    if done.returncode != 0:
        raise RuntimeError(f"{path} --version ends with {done.returncode}: {done.stderr}")
    found = VERSION.match(done.stdout)
    return (int(found[1]), int(found[2])) if found else None


def ansible_vault() -> str | None:
    if named := os.environ.get("ANSIBLE_VAULT"):
        assert release_of(named), f"{named} is not of Ansible's core"
        return named
    folders = os.environ.get("PATH", "").split(os.pathsep)
    paths = (shutil.which(name, path=folder) for folder in folders for name in NAMES)
    return next((path for path in paths if path and release_of(path)), None)


def ansible_release() -> tuple[int, int]:
    """Return the release of the tool that `ansible_vault` finds, such as (2, 14)."""
    release = release_of(ansible_vault() or "")
    assert release, "a test asks for the release of a tool that it has"
    return release

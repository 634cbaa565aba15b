"""Runs git so that it starts no program that a repository names. Output counts only if the status is right."""

from __future__ import annotations

import os
from collections.abc import Mapping
from subprocess import PIPE, CompletedProcess, Popen
from typing import Any

from ansible_vault_companions import processes
from ansible_vault_companions.files.link_bounds import find_current_folder, find_repository
from ansible_vault_companions.refusals import Refused

# A repository has its own settings and hooks, which name programs: core.fsmonitor to read an index, hooks, and a
# transport (and so core.sshCommand) to fetch an object that a partial clone lacks. These are switched off. Filters,
# pagers, and programs for diff and merge belong to git commands that are not used here.
# `check-attr` overlooks the attributes of directories outside of a sparse checkout, so that is off as well. A directory
# that looks like a bare repository is none, unless a variable names it. Before version 2.38, git does not know this. A
# temporary index is one file.
OFF = (
    "core.fsmonitor=false",
    "submodule.recurse=false",
    "core.sparseCheckout=false",
    "safe.bareRepository=explicit",
    "core.splitIndex=false",
)
NO_HOOKS = f"core.hooksPath={os.devnull}"
# These commands run no hook, and need the real setting to say where the hooks are.
OF_HOOKS = ("rev-parse", "config")
ONLY_WHAT_IS_THERE = {"GIT_NO_LAZY_FETCH": "1", "GIT_ALLOW_PROTOCOL": "none", "GIT_NO_REPLACE_OBJECTS": "1"}


def build_command(words: tuple[str, ...]) -> list[str]:
    """The words of a git command that starts no program that a repository names."""
    settings = OFF if words[0] in OF_HOOKS else (*OFF, NO_HOOKS)
    options = [word for setting in settings for word in ("-c", setting)]
    return ["git", "--no-pager", "--literal-pathspecs", *options, *words]


def build_environment(folder: str | None = None) -> dict[str, str]:
    """The variables for git. In a directory, those of git's own count only if they are settings: others may name
    another repository, which a hook has to take. A trace would look like a message."""
    names = [name for name in os.environ if not name.startswith("GIT_TRACE")]
    if folder:
        names = [name for name in names if name.startswith("GIT_CONFIG_") or not name.startswith("GIT_")]
    return {**{name: os.environ[name] for name in names}, **ONLY_WHAT_IS_THERE}


def start_git(
    words: tuple[str, ...], folder: str | None = None, variables: Mapping[str, str] = {}, **options: Any
) -> Popen[bytes]:
    environment = {**build_environment(folder), **variables}
    return processes.start_program(build_command(words), env=environment, cwd=folder, **options)


def run_git_command(
    *words: str, data: bytes = b"", folder: str | None = None, **options: Any
) -> CompletedProcess[bytes]:
    """Runs a git command to its end, whatever its status."""
    with start_git(words, folder, stdin=PIPE, stdout=PIPE, stderr=PIPE, **options) as git:
        output, errors = git.communicate(data)
    return CompletedProcess(words, git.returncode, output, errors)


def run_git(*words: str, may_be_none: bool = False, **options: Any) -> bytes:
    """The output of a git command. If it fails, so does this, with git's own message. With the status 1, some commands
    say that there is none of what they look for."""
    done = run_git_command(*words, **options)
    if done.returncode == 0:
        return done.stdout
    if may_be_none and done.returncode == 1:
        return b""
    raise make_refusal(words[0], done.returncode, done.stderr)


def make_refusal(command: str, status: int, errors: bytes) -> Refused:
    """Says why a git command failed: if possible, what git says."""
    end = f"signal {-status} ended it" if status < 0 else f"it ended with status {status}"
    return Refused(f"git {command} failed: {' '.join(errors.decode(errors='replace').split()) or end}")


def read_line(*words: str, may_be_none: bool = False) -> str:
    """The line that a git command prints; empty if there is none. A path may contain line ends of its own."""
    return os.fsdecode(run_git(*words, may_be_none=may_be_none).removesuffix(b"\n"))


def list_records(*words: str, data: bytes = b"", folder: str | None = None) -> list[bytes]:
    """The records that a git command prints: with -z, each ends with a null character; otherwise, it is a line."""
    return run_git(*words, data=data, folder=folder).split(b"\0" if "-z" in words else b"\n")[:-1]


def find_top() -> str:
    """The top directory of the current repository. Only git's variables may name one without `.git`."""
    here = find_current_folder()
    folder = read_line("rev-parse", "--show-toplevel") if "GIT_DIR" in os.environ else find_repository(here)
    if not folder:
        raise Refused("the current directory is not in a git repository")
    return folder

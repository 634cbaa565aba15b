"""The git attributes that mark files, and the one that exempts them."""

from __future__ import annotations

import os
import re
from functools import lru_cache
from subprocess import CompletedProcess
from typing import Any, Collection, Iterable, NamedTuple

from ansible_vault_companions import signals
from ansible_vault_companions.files import reading
from ansible_vault_companions.files.link_bounds import find_repository
from ansible_vault_companions.git.commands import make_refusal, run_git, run_git_command
from ansible_vault_companions.output import write_error
from ansible_vault_companions.quoting import escape
from ansible_vault_companions.refusals import Refused, describe_refusal

Done = CompletedProcess[bytes]
CHECK = "check-attr"
# The status with which git refuses an option that it does not know.
INVALID_OPTION = 129
# The first attribute marks a file if it has this value, the second if it is set. Unset, the second exempts a file.
DIFF, VAULT = ATTRIBUTES = ("diff", "ansible-vault")
NAME = b"ansible-vault"
FILE = b".gitattributes"
# How many files git is asked about at once. Its answer is much longer than their names.
AT_ONCE = 10_000
# What needs no escape in a pattern, and what has a meaning there.
UNQUOTED = re.compile(rb"[\w/.@+,-]+", re.ASCII)
SPECIAL = re.compile(rb"[*?\[\\]")


class Attributes(NamedTuple):
    is_marked: bool = False
    is_exempt: bool = False


def read_attributes(names: Collection[bytes], commit: str) -> tuple[dict[bytes, Attributes], list[str]]:
    """The attributes of files in a commit or, without one, in the index; and what git says that it overlooks."""
    done = _ask(names, f"--source={commit}" if commit else "--cached")
    if commit and done.returncode == INVALID_OPTION:
        import tempfile

        # Before version 2.40, git reads attributes from an index alone. A signal must not leave that behind.
        with signals.Postponement(), tempfile.TemporaryDirectory(prefix="ansible-vault-hook-") as private:
            variables = {"GIT_INDEX_FILE": os.path.join(private, "index")}
            run_git("read-tree", commit, variables=variables)
            done = _ask(names, "--cached", variables=variables)
    return _read_answer(names, done)


def _ask(names: Collection[bytes], *options: str, **places: Any) -> Done:
    data = b"".join(name + b"\0" for name in names)
    return run_git_command(CHECK, *options, "-z", "--stdin", *ATTRIBUTES, data=data, **places)


def _read_answer(names: Collection[bytes], done: Done) -> tuple[dict[bytes, Attributes], list[str]]:
    if done.returncode:
        raise make_refusal(CHECK, done.returncode, done.stderr)
    # The name, the attribute and its value, for each attribute.
    fields = done.stdout.split(b"\0")
    found = {name: _make_attributes(diff, vault) for name, diff, vault in zip(names, fields[2::6], fields[5::6])}
    return found, done.stderr.decode(errors="replace").splitlines()


@lru_cache(maxsize=None)
def _make_attributes(diff: bytes, vault: bytes) -> Attributes:
    is_exempt = vault == b"unset"
    return Attributes(not is_exempt and (diff == NAME or vault == b"set"), is_exempt)


def make_line(name: bytes) -> str:
    """The line for the .gitattributes at the top that exempts this file alone."""
    return f"{_make_pattern(name)} -{VAULT}"


def report_warnings(program: str, warnings: Iterable[str]) -> None:
    """Passes on what git overlooks with a warning, such as a negative pattern, once each."""
    for warning in dict.fromkeys(warnings):
        write_error(f"{program}: git {CHECK}: {escape(warning)}")


def find_marked(paths: Iterable[tuple[str, Collection[str]]]) -> tuple[set[str], list[str]]:
    """Of these paths, each with its real path and that of its file, those that are marked in the repository that they
    are in, if any; and what git says that it overlooks. A link counts by its own name, too."""
    marked, warnings = set[str](), []
    for folder, names in _group_by_repository(paths).items():
        _require_readable(folder, names)
        listed = [*names]
        for start in range(0, len(listed), AT_ONCE):
            some = listed[start : start + AT_ONCE]
            attributes, overlooked = _read_answer(some, _ask(some, folder=folder))
            warnings += overlooked
            marked.update(names[name] for name, given in attributes.items() if given.is_marked)
    return marked, warnings


def _require_readable(repository: str, names: Iterable[bytes]) -> None:
    """Refuses a .gitattributes for one of these files that git would overlook with a warning or, if it is a pipe, wait
    for."""
    for name in list_attribute_files(names):
        path = os.path.join(repository, os.fsdecode(name))
        try:
            reading.read(path)
        except NotADirectoryError:
            pass
        except (Refused, OSError) as fault:
            raise Refused(describe_refusal(path, fault)) from None


def _group_by_repository(paths: Iterable[tuple[str, Collection[str]]]) -> dict[str, dict[bytes, str]]:
    """The paths in each repository, by their names there, and by those of their files. What is outside of repositories
    is left out."""
    repositories: dict[str, dict[bytes, str]] = {}
    for path, places in paths:
        for place in places:
            repository = find_repository(place[: place.rindex(os.sep)] or os.sep)
            if repository:
                # The root directory alone ends with its slash.
                below = os.fsencode(place[len(repository.rstrip(os.sep)) + 1 :])
                repositories.setdefault(repository, {})[below] = path
    return repositories


def list_attribute_files(names: Iterable[bytes]) -> list[bytes]:
    """The paths at which a .gitattributes would concern one of the files with these names."""
    folders = {b""}
    for folder in {name.rpartition(b"/")[0] for name in names}:
        while folder not in folders:
            folders.add(folder)
            folder = os.path.dirname(folder)
    return sorted(os.path.join(folder, FILE) for folder in folders)


def _make_pattern(name: bytes) -> str:
    """A pattern for .gitattributes that matches only this file. In quotes, git reads escapes as C does."""
    if UNQUOTED.fullmatch(name):
        return f"/{name.decode()}"
    escaped = SPECIAL.sub(rb"\\\g<0>", name)
    text = "".join(chr(byte) if 0x20 <= byte < 0x7F and byte not in b'"\\' else f"\\{byte:03o}" for byte in escaped)
    return f'"/{text}"'

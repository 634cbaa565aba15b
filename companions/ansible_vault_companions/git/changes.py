"""What is staged, or what a commit has, and what that changes, as git prints it."""

from __future__ import annotations

import os
from typing import Collection, Iterable, Iterator, NamedTuple

from ansible_vault_companions.git.attributes import FILE as ATTRIBUTES
from ansible_vault_companions.git.commands import list_records, read_line
from ansible_vault_companions.git.pathspecs import make_pathspec
from ansible_vault_companions.quoting import escape
from ansible_vault_companions.refusals import Refused

RAW = ("--raw", "-z", "--no-abbrev", "--no-renames")
COMMITS = ("diff-tree", "--stdin", "-r", "-m", "--root", *RAW)
# The modes of regular files, as opposed to links and submodules, which have no content of their own.
FILE_MODES = ("100644", "100755")
# How many digits of a commit are enough for a message.
DIGITS = 10
# git gives a hook the commits being merged in environment variables with this prefix.
MERGED = "GITHEAD_"
SHALLOW = "earlier commits are missing: run `git fetch --unshallow`, or set fetch-depth or GIT_DEPTH of a pipeline to 0"
NO_COMMIT = "{} is not a commit in this clone; for a new branch, name the one that it began on: --since origin/main"


class File(NamedTuple):
    """A file, and its blobs now and before. A blob is empty if there is no such file."""

    name: bytes
    blob: str
    before: str = ""


class Changes(NamedTuple):
    """Files, and what they differ from, if anything: its name in messages, and its tree if it is the only parent."""

    files: list[File]
    since: str = ""
    parent: str = ""
    # The commit that the files are in, and where to rewrite that from: both empty for what is staged.
    commit: str = ""
    base: str = ""
    # The commit whose .gitattributes count; empty for those that are staged.
    marks: str = ""


def list_staged() -> list[Changes]:
    """What is staged, compared with HEAD and with each commit that is being merged."""
    # Of several that are being merged, git prints only the first, but gives them all to the hook for a merge.
    parents = [line.decode() for line in list_records("rev-parse", "--revs-only", "HEAD", "MERGE_HEAD")]
    merged = {name.removeprefix(MERGED) for name in os.environ if name.startswith(MERGED)}
    parents += sorted(merged.difference(parents))
    names = ["HEAD", *(id[:DIGITS] for id in parents[1:])]
    if not parents:
        parents = [_find_empty_tree()]
    single = parents[0] if len(parents) == 1 else ""
    return [
        Changes([*_list_files("diff-index", "--cached", *RAW, parent, "--")], name, single)
        for parent, name in zip(parents, names)
    ]


def _find_empty_tree() -> str:
    return read_line("hash-object", "-t", "tree", "--stdin")


def list_named(paths: list[str]) -> list[File]:
    """The staged files at or below these paths. git refuses a path without any."""
    return _read_entries(list_records("ls-files", "-s", "-z", "--full-name", "--error-unmatch", "--", *paths))


def list_tree(commit: str, parts: Collection[bytes] = ()) -> list[File]:
    """All files of a commit, or those whose directory or name is one of these."""
    entries = list_records("ls-tree", "-r", "-z", "--full-tree", commit)
    if parts:
        entries = [entry for entry in entries if any(part in parts for part in split_path(entry.partition(b"\t")[2]))]
    return _read_entries(entries)


def split_path(path: bytes) -> tuple[bytes, bytes]:
    """The directory and the name of a file."""
    folder, _, name = path.rpartition(b"/")
    return folder, name


def find_commit(name: str) -> str:
    commit = read_line("rev-parse", "--verify", "--quiet", "--end-of-options", f"{name}^{{commit}}", may_be_none=True)
    if not commit:
        raise Refused(NO_COMMIT.format(escape(name)))
    return commit


def require_whole_history() -> None:
    if read_line("rev-parse", "--is-shallow-repository") == "true":
        raise Refused(SHALLOW)


def list_commits(*which: str) -> Iterator[Changes]:
    """The changes of each of these commits, compared with each parent. Which ones they are is said as to git log."""
    lines = list_records("rev-list", "--reverse", "--topo-order", "--parents", *which, "--")
    parents = {ids[0]: ids[1:] for ids in (line.decode().split() for line in lines)}
    marks = dict[str, str]()
    for commit, files in _list_files_of(parents).items():
        own = parents[commit]
        has_new_marks = any(os.path.basename(file.name) == ATTRIBUTES for file in files)
        first = own[0] if own else _find_empty_tree()
        marks[commit] = commit if has_new_marks or not own else marks.get(first, first)
        since, base = " or ".join(id[:DIGITS] for id in own), f"{commit}~1" if own else "--root"
        yield Changes(files, since, first if len(own) < 2 else "", commit, base, marks[commit])


def _list_files_of(commits: Iterable[str]) -> dict[str, list[File]]:
    """The files that each of these commits changes, for each parent."""
    changed: dict[str, list[File]] = {commit: [] for commit in commits}
    commit = ""
    fields = iter(list_records(*COMMITS, data=b"".join(f"{commit}\n".encode() for commit in commits)))
    for field in fields:
        if field.startswith(b":"):
            changed[commit] += _read_file(field, next(fields))
        else:
            commit = field.decode()
    return changed


def _list_files(*words: str) -> Iterator[File]:
    fields = iter(list_records(*words))
    for metadata in fields:
        yield from _read_file(metadata, next(fields))


def _read_file(metadata: bytes, name: bytes) -> list[File]:
    """The file of an entry, unless it was and is none."""
    old_mode, mode, before, blob, status = metadata[1:].decode().split()
    if status == "U":
        path = os.fsdecode(name)
        to_add = f"`git add -- {make_pathspec(path, is_below_top=True)}`"
        raise Refused(f"{escape(path)} is unmerged; resolve the conflict, and run {to_add}")
    file = File(name, blob if mode in FILE_MODES else "", before if old_mode in FILE_MODES else "")
    return [file] if file.blob or file.before else []


def _read_entries(entries: Iterable[bytes]) -> list[File]:
    """The files that ls-tree or ls-files prints."""
    files = []
    for entry in entries:
        metadata, _, name = entry.partition(b"\t")
        mode, *_, blob = metadata.decode().removesuffix(" 0").split()
        if mode in FILE_MODES:
            files.append(File(name, blob))
    return files

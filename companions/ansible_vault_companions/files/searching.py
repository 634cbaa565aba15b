"""Finds the files below the paths of a command line."""

from __future__ import annotations

import argparse
import errno
import os
import stat
from fnmatch import fnmatchcase
from operator import attrgetter
from typing import Callable, Collection, NamedTuple

from ansible_vault_companions.files import link_bounds
from ansible_vault_companions.files.leftovers import is_leftover
from ansible_vault_companions.output import Progress
from ansible_vault_companions.quoting import quote_word
from ansible_vault_companions.refusals import describe_fault

NOT_SEARCHED = "it is a link to a directory, which is not searched; name {} as well"


class Way(NamedTuple):
    """A path that leads to a file."""

    path: str
    # Where the path is: a real one, but its last name may be that of a link. Empty if it leads nowhere.
    place: str
    # Why the file must not be read or replaced through it; empty if it may.
    refusal: str


class FoundFile(NamedTuple):
    """A file, and the ways that lead to it."""

    target: str
    ways: list[Way]

    @property
    def paths(self) -> list[str]:
        return [way.path for way in self.ways]

    @property
    def names(self) -> list[str]:
        """The paths, with the real one."""
        return [*self.paths, self.target]

    @property
    def refusal(self) -> str:
        """Why it must not be read or replaced; empty if it may be in one of the ways."""
        return "" if any(not way.refusal for way in self.ways) else self.ways[0].refusal


def add_paths(parser: argparse.ArgumentParser) -> None:
    """Adds the paths to search, and the option that leaves out files."""
    text = "skip files and directories whose name or path matches PATTERN; may be repeated"
    parser.add_argument("--exclude", action="append", default=[], metavar="PATTERN", help=text)
    parser.add_argument("paths", metavar="PATH", nargs="+", help="a file or directory to search")


class _Folder(NamedTuple):
    """A directory that is searched: its path as messages show it, and the real one."""

    path: str
    place: str


class _Pattern(NamedTuple):
    """A pattern of what to leave out, without a slash at its end."""

    text: str
    # Whether it has to match a whole path, since it has a slash, and not just a name.
    is_path: bool


class Search:
    """Finds each file once. A path that is no file, and a directory that cannot be read, are among the files, so that
    reading them says why."""

    def __init__(self, paths: list[str], excluded: Collection[str]) -> None:
        self.excluded = [_Pattern(os.path.normpath(each), "/" in each.rstrip("/")) for each in excluded]
        # The real paths of the directories that are searched.
        self.tops: list[str] = []
        # The files by their real paths.
        self.found: dict[str, FoundFile] = {}
        # Links to directories, and where they lead.
        self.folders: dict[str, str] = {}
        self.progress = Progress(lambda: f"{len(self.found):,} files found")
        with self.progress:
            for path in paths:
                self._search(path)

    def list_files(self) -> list[FoundFile]:
        """Each file, once."""
        return [*self.found.values()]

    def list_unsearched(self) -> dict[str, str]:
        """The links to directories outside of those that are searched, each with a message."""
        return {
            path: NOT_SEARCHED.format(quote_word(target))
            for path, target in self.folders.items()
            if not any(link_bounds.is_within(target, top) for top in self.tops)
        }

    def _search(self, path: str) -> None:
        """Finds what a path of the command line leads to."""
        name = os.path.basename(os.path.normpath(path))
        if name not in (os.curdir, os.pardir) and self._is_excluded(path):
            return
        if not os.path.isdir(path):
            target, refusal = _resolve(path, link_bounds.resolve_file, path)
            self._add(path, _find_place(path), target, refusal)
            return
        target, refusal = _resolve(path, link_bounds.resolve_path, path)
        if refusal:
            self._add(path, _find_place(path), target, refusal)
        else:
            self.tops.append(target)
            self._search_folder(path, target)

    def _search_folder(self, path: str, top: str) -> None:
        """Finds the files below a directory with this typed and this real path."""
        # Those that are left, the next one last.
        folders = [_Folder(path, top)]
        while folders:
            folder = folders.pop()
            self.progress.show()
            try:
                entries = _list_folder(folder.place)
            except OSError:
                self._add(folder.path, folder.place, folder.place, "")
                continue
            # Directories may have many files, so what the system says of an entry has to be enough.
            beginning = os.path.join(folder.path, "")
            below = []
            for entry in entries:
                path = beginning + entry.name
                if self._is_left_out(entry, path):
                    continue
                if entry.is_file(follow_symlinks=False):
                    self._add(path, entry.path, entry.path, "")
                elif entry.is_dir(follow_symlinks=False):
                    below.append(_Folder(path, entry.path))
                elif entry.is_symlink():
                    self._add_link(path, entry, top)
            folders += reversed(below)

    def _add_link(self, path: str, entry: os.DirEntry[str], top: str) -> None:
        """Adds a link."""
        target, refusal = _resolve(entry.path, link_bounds.resolve_path, entry.path, top)
        kind = _find_kind(entry.path)
        if stat.S_ISDIR(kind):
            self.folders[path] = target
        elif stat.S_ISREG(kind):
            self._add(path, entry.path, target, refusal)

    def _is_left_out(self, entry: os.DirEntry[str], path: str) -> bool:
        """Whether to skip what is in a directory. A temporary file belongs to another companion, or to a crash."""
        if entry.name == link_bounds.GIT or is_leftover(entry.name) and entry.is_file(follow_symlinks=False):
            return True
        return bool(self.excluded) and self._is_excluded(path)

    def _add(self, path: str, place: str, target: str, refusal: str) -> None:
        way = Way(path, place, refusal)
        if target in self.found:
            self.found[target].ways.append(way)
        else:
            self.found[target] = FoundFile(target, [way])

    def _is_excluded(self, path: str) -> bool:
        """Whether a pattern matches a path as messages show it, or its name."""
        whole = os.path.normpath(path)
        for pattern in self.excluded:
            if fnmatchcase(whole if pattern.is_path else os.path.basename(whole), pattern.text):
                return True
        return False


def _list_folder(folder: str) -> list[os.DirEntry[str]]:
    """What a directory contains, by name."""
    with os.scandir(folder) as entries:
        return sorted(entries, key=attrgetter("name"))


def _find_place(path: str) -> str:
    """Where a typed path is; empty if it leads nowhere."""
    folder, name = os.path.split(path)
    if not os.path.isdir(folder or os.curdir):
        return ""
    return os.path.normpath(os.path.join(os.path.realpath(folder), name))


def _resolve(path: str, resolve: Callable[..., str], *words: str) -> tuple[str, str]:
    """The real path of a typed path or of a link, and the reason to refuse it, if there is one. A path that leads
    nowhere stays as it is."""
    try:
        return resolve(*words), ""
    except link_bounds.NotFollowed as fault:
        return fault.target, str(fault)
    except OSError as fault:
        return path, describe_fault(fault, words[0])


def _find_kind(path: str) -> int:
    """The mode of what a directory contains, or of that to which it leads; 0 if it leads nowhere. What cannot be looked
    at counts as a file, so that reading it says why."""
    try:
        return os.stat(path).st_mode
    except OSError as fault:
        return 0 if fault.errno in (errno.ENOENT, errno.ELOOP) else stat.S_IFREG

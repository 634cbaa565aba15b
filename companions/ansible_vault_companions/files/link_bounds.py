"""Where a path leads.

A link counts if the user or root has made it. Anybody else's leads only to files of that user's own: it could have the
user, or root, read or replace any other file. A repository may come from a stranger, who has the user make its links.
So what is replaced, and what is found in a search, is not where a link in a repository leads out of it.
"""

from __future__ import annotations

import errno
import os
import stat
from functools import lru_cache

from ansible_vault_companions.quoting import escape, quote_word
from ansible_vault_companions.refusals import Refused

# How many links the system follows on one path. Behind a missing name, which it does not pass, links may go in circles.
MOST_LINKS = 40
GIT = ".git"
WITHIN_GIT = f"/{GIT}/"


class NotFollowed(Refused):
    """A link on a path is not followed."""

    def __init__(self, why: str, target: str) -> None:
        super().__init__(f"{why}; name {quote_word(target)} instead")
        self.target = target


def find_current_folder() -> str:
    """The current directory. The system does not name it if it is gone."""
    try:
        return os.getcwd()
    except OSError as fault:
        raise Refused(f"the current directory: {fault.strerror}") from None


@lru_cache(maxsize=None)
def find_repository(folder: str) -> str | None:
    """The top directory of the repository that contains this directory, if any. git would take a process for each."""
    above = os.path.dirname(folder)
    while not os.path.lexists(os.path.join(folder, GIT)):
        if above == folder:
            return None
        folder, above = above, os.path.dirname(above)
    return folder


def is_within(path: str, folder: str) -> bool:
    """Whether a real path is that of a directory or below it, but not in git's own directory."""
    below = os.path.join(folder, "")
    return path == folder or path.startswith(below) and WITHIN_GIT not in f"/{path[len(below) :]}/"


def resolve_to_read(path: str) -> str:
    """The real path of a typed file, wherever its links lead. A name of an open file or of a device stays as it is."""
    return path if _is_open_file(path) else follow_links(path)[0]


def resolve_file(path: str) -> str:
    """The real path of a typed file that may be replaced. A name of an open file or of a device stays as it is."""
    return path if _is_open_file(path) else resolve_path(path)


def resolve_path(path: str, bound: str = "") -> str:
    """The real path to which a path leads. Refuses one with a link that leads out of its repository or, if it is in
    none, out of the bound."""
    target, links = follow_links(path)
    for link in links:
        top = find_repository(os.path.dirname(link)) or bound
        if top and not is_within(target, top):
            raise NotFollowed(f"a link leads out of {escape(top)}", target)
    return target


def follow_links(path: str) -> tuple[str, list[str]]:
    """What list_links returns. Refuses another user's link."""
    target, links = list_links(path)
    for link in links:
        _require_own(link, target)
    return target, links


def list_links(path: str) -> tuple[str, list[str]]:
    """The real path to which a path leads, and those of the links on the way, in order."""
    target = "/"
    links: list[str] = []
    names = _make_absolute(path).split(os.sep)[::-1]
    while names:
        name = names.pop()
        if name == os.pardir:
            target = os.path.dirname(target)
        elif name not in ("", os.curdir):
            target = os.path.join(target, name)
            if _is_link(target):
                if len(links) == MOST_LINKS:
                    raise OSError(errno.ELOOP, os.strerror(errno.ELOOP), path)
                links.append(target)
                text = os.readlink(target)
                target = "/" if os.path.isabs(text) else os.path.dirname(target)
                names += text.split(os.sep)[::-1]
    return target, links


def _is_link(path: str) -> bool:
    """Whether there is a link at a path. Python's own `islink` also says no if the system cannot say."""
    try:
        return stat.S_ISLNK(os.lstat(path).st_mode)
    except (FileNotFoundError, NotADirectoryError):
        return False


def _require_own(link: str, target: str) -> None:
    owner = os.lstat(link).st_uid
    if owner not in (os.geteuid(), 0) and owner != _find_owner(target):
        raise NotFollowed(f"{escape(link)} is another user's link", target)


def _find_owner(path: str) -> int:
    """The owner of a file or, until there is one, of its directory."""
    try:
        return os.lstat(path).st_uid
    except FileNotFoundError:
        return os.lstat(os.path.dirname(path)).st_uid


def _is_open_file(path: str) -> bool:
    """Whether only the system can follow a path, such as /dev/stdin."""
    folder = os.path.normpath(os.path.dirname(_make_absolute(path)))
    return folder in ("/dev", "/dev/fd") or folder.startswith("/proc/") and folder.endswith("/fd")


def _make_absolute(path: str) -> str:
    """The same path from the root directory. Refuses one on which the system does not follow all links."""
    try:
        os.stat(path)
    except OSError as fault:
        if fault.errno == errno.ELOOP:
            raise
    return path if os.path.isabs(path) else os.path.join(find_current_folder(), path)


def require_folder(target: str) -> None:
    """Refuses a real path whose directory is missing: the system would only say that there is no such file."""
    folder = os.path.dirname(target)
    if not os.path.lexists(folder):
        raise Refused(f"there is no directory {escape(folder)}; make it first")

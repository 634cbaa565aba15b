"""The user's own directories: that of an edit, which has the plaintext while the editor runs, and that of copies."""

from __future__ import annotations

import errno
import os
import re
import stat
import tempfile
from contextlib import suppress
from pathlib import PurePath

from ansible_vault_companions import refusals
from ansible_vault_companions.files import reading
from ansible_vault_companions.quoting import escape
from ansible_vault_companions.refusals import Refused

FOLDER_PREFIX = "ansible-vault-"
# An editor's command may be one that reads the path once more, such as `eval`. A stranger may have named the file.
READ_BY_SHELLS = re.compile(r"[^\w.,@%+-]")
NO_PRIVATE_FOLDER = (
    "no private directory can be made for the plaintext ({}); set TMPDIR to a directory that only you can open"
)
STAYS_IN_PLAINTEXT = "what you saved is left in plaintext in {}"
# A swap file of an editor that was ended has what was not saved.
LEFT = "{} is left, with {} in it; save what you need, which may be plaintext, and remove it yourself"


def require_own_folder(path: str) -> None:
    """Refuses a directory, by its real path, unless it is the user's own, and nobody else can put another one in its
    place: each directory above it belongs to the user or to root, and is closed to other writers, or sticky."""
    for above in reversed(PurePath(path).parents):
        status = os.lstat(above)
        if status.st_uid not in (os.geteuid(), 0):
            raise PermissionError(errno.EPERM, f"{escape(str(above))} belongs to another user")
        if status.st_mode & (stat.S_IWGRP | stat.S_IWOTH) and not status.st_mode & stat.S_ISVTX:
            raise PermissionError(errno.EPERM, f"others can write to {escape(str(above))}")
    status = os.lstat(path)
    if status.st_uid != os.geteuid() or status.st_mode & 0o077:
        raise PermissionError(errno.EPERM, f"{escape(path)} is not a directory that only you can open")


class PrivateDirectory:
    """A directory of the user's own, in memory if possible, with a file that is named like the one at this path."""

    def __init__(self, path: str, text: bytes) -> None:
        self.text = text
        name = READ_BY_SHELLS.sub("_", os.path.basename(path))
        self.path = _make(name, text)
        self.file = os.path.join(self.path, name)

    def remove(self, saved: bytes | None) -> str:
        """Removes each file whose text is elsewhere: that which the edit began with, or what was saved, if it is. Any
        other has something that somebody typed, so it stays. Returns what a message says of that."""
        texts = {self.text, b"", saved}
        if not _is_in(self.file, texts):
            return STAYS_IN_PLAINTEXT.format(self.path)
        for path in _list_files(self.path):
            if _is_in(path, texts):
                with suppress(OSError):
                    os.unlink(path)
        with suppress(OSError):
            os.rmdir(self.path)
        if not os.path.lexists(self.path):
            return ""
        left = ", ".join(escape(os.path.basename(path)) for path in _list_files(self.path))
        return LEFT.format(self.path, left or "nothing")


def _is_in(path: str, texts: set[bytes | None]) -> bool:
    """Whether a file has one of these texts, or none, such as a link, or is gone. What cannot be read has another."""
    try:
        text = reading.read(path)
    except Refused:
        return True
    except Exception:
        return False
    return text is None or text in texts


def _make(name: str, text: bytes) -> str:
    """A new directory with this file, in the first place that takes both."""
    faults = []
    for place in _list_places():
        try:
            return _make_in(place, name, text)
        except OSError as fault:
            faults.append(f"{place}: {refusals.describe_fault(fault, place)}")
    raise Refused(NO_PRIVATE_FOLDER.format("; ".join(faults)))


def _list_places() -> list[str]:
    """The directories in which to try it, those in memory first. A relative path may lead to a stranger's."""
    places = [os.environ.get("XDG_RUNTIME_DIR", ""), "/dev/shm", os.environ.get("TMPDIR", ""), "/tmp"]
    return [os.path.realpath(place) for place in places if os.path.isabs(place)]


def _make_in(place: str, name: str, text: bytes) -> str:
    folder = tempfile.mkdtemp(prefix=FOLDER_PREFIX, dir=place)
    path = os.path.join(folder, name)
    try:
        require_own_folder(folder)
        _write_new(path, text)
    except OSError:
        os.rmdir(folder)
        raise
    return folder


def _write_new(path: str, text: bytes) -> None:
    with open(path, "xb", opener=lambda file, flags: os.open(file, flags, 0o600)) as file:
        try:
            file.write(text)
            file.flush()
        except OSError:
            os.unlink(path)
            raise


def _list_files(folder: str) -> list[str]:
    """The paths of what is in a directory, which may be gone: logging out removes files in memory."""
    try:
        return [os.path.join(folder, name) for name in sorted(os.listdir(folder))]
    except OSError:
        return []

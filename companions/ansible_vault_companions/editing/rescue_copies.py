"""What an edit could not put into the file is kept in an encrypted copy, until --resume opens it or --discard drops it.

There is at most one for each file: while there is one, the file is not edited without it.
"""

from __future__ import annotations

import errno
import hashlib
import os
import stat
from typing import NamedTuple

from ansible_vault_companions import refusals
from ansible_vault_companions.envelopes.header import read_label
from ansible_vault_companions.files import reading, replacing
from ansible_vault_companions.passwords.labels import Credential
from ansible_vault_companions.quoting import escape
from ansible_vault_companions.refusals import Refused
from ansible_vault_companions.tool import Decrypt, Tool

# Precedes the text of a copy, so that no text begins like a vault, which ansible-vault would not encrypt. The digest is
# that of the text that the edit began with.
HEAD = b"# ansible-vault-edit %s: what was saved begins below.\n"
LEFT = "an earlier edit is encrypted in {}; --resume opens it, --discard removes it"
NO_COPY = "no earlier edit left a copy in {}"
NO_FOLDER = "no copies can be kept in {} ({}); set XDG_STATE_HOME to a directory of your own"
OUTDATED = (
    "its text or its label has changed since the edit that left {}; take what you need from the copy, which "
    "`ansible-vault-textconv` shows, and remove it with --discard"
)


class Copy(NamedTuple):
    """The path of a copy, what is there, and the text that it keeps."""

    path: str
    content: bytes
    text: bytes


def find_folder() -> str:
    """The directory of copies, which may be missing. They are encrypted, so it only has to be the user's own."""
    state = os.environ.get("XDG_STATE_HOME", "")
    state = state if os.path.isabs(state) else os.path.expanduser("~/.local/state")
    if not os.path.isabs(state):
        raise Refused(f"{escape(state)} is relative; set XDG_STATE_HOME to an absolute path")
    path = os.path.join(os.path.realpath(state), "ansible-vault")
    try:
        _require_own(path)
    except OSError as fault:
        raise _make_refusal(path, fault) from None
    return path


def find_copy(target: str) -> str | None:
    """The path of the copy for a file, if there is one."""
    path = _find_path(find_folder(), target)
    return path if os.path.lexists(path) else None


def choose_copy(target: str, is_resumed: bool) -> str | None:
    """The copy to resume from, if that is wanted. Otherwise, refuses a file that has one."""
    if is_resumed:
        return require_copy(target)
    try:
        copy = find_copy(target)
    except Refused:
        return None
    if copy:
        raise Refused(LEFT.format(escape(copy)))
    return None


def require_copy(target: str) -> str:
    """The path of the copy for a file. Refuses a file without one."""
    copy = find_copy(target)
    if not copy:
        raise Refused(NO_COPY.format(escape(find_folder())))
    return copy


def read_copy(path: str, base: bytes, credential: Credential | None, decrypt: Decrypt) -> Copy:
    """The copy at a path. Refuses one if the file's text or label has changed since; its password may have."""
    content = reading.read_existing(path)
    text = decrypt(content).plaintext
    if credential is None or credential.label != read_label(content) or not text.startswith(_make_head(base)):
        raise Refused(OUTDATED.format(escape(path)))
    return Copy(path, content, text[len(_make_head(base)) :])


def save_copy(tool: Tool, credential: Credential, target: str, base: bytes, text: bytes, old: Copy | None) -> str:
    """Writes the copy of a text, in place of the one that the edit has resumed, and returns its path. The edit began
    with `base`."""
    envelope = tool.encrypt(_make_head(base) + text, credential)
    folder = find_folder()
    path = _find_path(folder, target)
    try:
        os.makedirs(os.path.dirname(folder), exist_ok=True)
        if not os.path.isdir(folder):
            os.mkdir(folder, 0o700)
        replacing.replace(path, envelope, old.content if old else None)
    except OSError as fault:
        raise _make_refusal(folder, fault) from None
    return path


def _require_own(path: str) -> None:
    """Refuses what is no directory of the user, such as a link, unless there is nothing."""
    try:
        status = os.lstat(path)
    except FileNotFoundError:
        return
    if not stat.S_ISDIR(status.st_mode) or status.st_uid != os.geteuid():
        raise PermissionError(errno.EPERM, f"{escape(path)} is no directory of yours")


def _make_refusal(path: str, fault: OSError) -> Refused:
    return Refused(NO_FOLDER.format(escape(path), refusals.describe_fault(fault, path)))


def _make_head(base: bytes) -> bytes:
    return HEAD % hashlib.sha256(base).hexdigest().encode()


def _find_path(folder: str, target: str) -> str:
    """Where the copy for a file is, if there is one."""
    return os.path.join(folder, hashlib.sha256(os.fsencode(target)).hexdigest()[:16])

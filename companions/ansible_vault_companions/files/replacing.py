"""Replaces files: the new file is written completely beside the old one, and then renamed."""

from __future__ import annotations

import errno
import os
import stat
import tempfile
from collections.abc import Iterator
from contextlib import contextmanager, suppress
from io import FileIO

from ansible_vault_companions import signals
from ansible_vault_companions.files import reading
from ansible_vault_companions.files.leftovers import PREFIX, SUFFIX
from ansible_vault_companions.refusals import Refused, describe_fault

CHANGED = "another program changed it in the meantime"
NOT_SYNCED = "it was written, but a power failure may undo that: its directory cannot be synced: {}"


class NotSynced(Refused):
    """A file is replaced, but perhaps not on the disk."""


def replace(
    target: str, content: bytes, before: bytes | None, is_private: bool = False, keeps_owner: bool = True
) -> None:
    """Replaces the content of a file with this real path. Refuses if the content is no longer `before`, or if a link is
    in its path by now. A private file is readable only by its owner, whatever its mode was. Raises NotSynced if the old
    content may come back after a power failure."""
    with signals.Postponement(), _open_old(target) as old:
        # What has taken the place of the file gets no say in who may read the new one.
        _require_same(target, old, before)
        beside = write_new(os.path.dirname(target), content, old, is_private, keeps_owner)
        try:
            _require_same(target, old, before)
            os.replace(beside, target)
        except BaseException as failed:
            _remove_new(beside, failed)
            raise
        try:
            _sync(os.path.dirname(target))
        except OSError as fault:
            raise NotSynced(NOT_SYNCED.format(describe_fault(fault))) from None


def check_replaceable(target: str) -> None:
    """Refuses in advance a file that `replace` could not replace."""
    with signals.Postponement(), _open_old(target) as old:
        os.unlink(write_new(os.path.dirname(target), b"", old))


@contextmanager
def _open_old(target: str) -> Iterator[FileIO | None]:
    """A context with the file at a real path; None if there is none."""
    _require_real(target)
    try:
        file = reading.open_regular(target)
    except FileNotFoundError:
        yield None
        return
    with file:
        yield file


def _require_same(target: str, old: FileIO | None, before: bytes | None) -> None:
    """Refuses a file that is no longer the one that was opened, or no longer has this content."""
    _require_real(target)
    content = reading.read_whole(old, target) if old else None
    if content != before or not _is_at(target, old):
        raise Refused(CHANGED)


def _require_real(target: str) -> None:
    """Refuses a path in which there is a link by now."""
    if os.path.realpath(target) != target:
        raise Refused(CHANGED)


def _is_at(target: str, old: FileIO | None) -> bool:
    try:
        status = os.lstat(target)
    except FileNotFoundError:
        return old is None
    return old is not None and os.path.samestat(status, os.fstat(old.fileno()))


def write_new(
    folder: str, content: bytes, like: FileIO | None, is_private: bool = False, keeps_owner: bool = True
) -> str:
    """Writes a new file, and returns its path. Only its owner may read it, unless it is to be like another one."""
    try:
        descriptor, path = tempfile.mkstemp(SUFFIX, PREFIX, folder)
    except OSError as fault:
        raise OSError(fault.errno, fault.strerror, folder) from None
    try:
        with open(descriptor, "wb") as file:
            file.write(content)
            file.flush()
            if like is not None:
                _copy_metadata(descriptor, like.fileno(), is_private, keeps_owner)
            os.fsync(descriptor)
    except BaseException as failed:
        _remove_new(path, failed)
        raise
    return path


def _remove_new(path: str, failed: BaseException) -> None:
    """Removes a new file after a failure. If that fails, too, the exception also says what was refused before."""
    try:
        os.unlink(path)
    except OSError as fault:
        why = f"{fault.strerror}; {failed}" if isinstance(failed, Refused) else fault.strerror
        raise OSError(fault.errno, why, path) from None


def _copy_metadata(descriptor: int, like: int, is_private: bool, keeps_owner: bool) -> None:
    """Copies owner, mode and extended attributes such as ACLs; to a private file, the owner alone."""
    old, new = os.fstat(like), os.fstat(descriptor)
    if old.st_nlink > 1:
        raise Refused(f"it has {old.st_nlink} names (hard links); replace the others with symbolic links first")
    if keeps_owner and (old.st_uid, old.st_gid) != (new.st_uid, new.st_gid):
        try:
            os.fchown(descriptor, old.st_uid, old.st_gid)
        except PermissionError as fault:
            raise Refused(_describe_owner(old, new.st_uid, fault)) from None
    # A directory may give this access control list to each new file.
    with suppress(OSError):
        os.removexattr(descriptor, "system.posix_acl_access")
    for name in [] if is_private else _list_attributes(like):
        os.setxattr(descriptor, name, os.getxattr(like, name))
    # Last, since a mode may forbid to set attributes.
    os.fchmod(descriptor, 0o600 if is_private else stat.S_IMODE(old.st_mode))


def _describe_owner(old: os.stat_result, user: int, fault: PermissionError) -> str:
    """Which of owner and group this user cannot keep, and what to do."""
    if old.st_uid == user:
        return f"its group {old.st_gid} cannot be kept: {fault.strerror}; run this as a member of it, or as root"
    owner = f"{old.st_uid}:{old.st_gid}"
    return f"its owner {owner} cannot be kept: {fault.strerror}; run this as that user, or as root"


def _list_attributes(descriptor: int) -> list[str]:
    """The names of a file's extended attributes, except those of security modules, which the system sets."""
    try:
        return [name for name in os.listxattr(descriptor) if not name.startswith("security.")]
    except OSError as fault:
        if fault.errno == errno.ENOTSUP:
            return []
        raise


def _sync(folder: str) -> None:
    """Syncs a directory, unless it cannot be read, or its file system cannot do that."""
    with suppress(PermissionError):
        descriptor = os.open(folder, os.O_RDONLY)
        try:
            os.fsync(descriptor)
        except OSError as fault:
            if fault.errno != errno.EINVAL:
                raise
        finally:
            os.close(descriptor)

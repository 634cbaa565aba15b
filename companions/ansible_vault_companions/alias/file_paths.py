"""The real path of a file on the command line. Refuses, by its name, one that ansible-vault could not open."""

from __future__ import annotations

import errno
import os

from ansible_vault_companions import refusals
from ansible_vault_companions.files import link_bounds
from ansible_vault_companions.quoting import escape
from ansible_vault_companions.refusals import Refused

STATUS_NOT_OPENED = 3


def resolve_to_read(path: str) -> str:
    """The real path of a file that stays as it is."""
    try:
        return link_bounds.resolve_to_read(path)
    except (Refused, OSError) as fault:
        raise Refused(refusals.describe_refusal(path, fault)) from None


def resolve_new(path: str) -> str:
    """The real path of a file that may be missing, but not its directory."""
    try:
        target = link_bounds.resolve_file(path)
        link_bounds.require_folder(target)
    except (Refused, OSError) as fault:
        raise Refused(refusals.describe_refusal(path, fault)) from None
    return target


def require_readable(path: str, target: str) -> None:
    """Refuses a file that cannot be read, since ansible-vault's own message does not name it."""
    number = _find_read_error(target)
    if number:
        raise Refused(f"{escape(path)}: {os.strerror(number)}", STATUS_NOT_OPENED)


def _find_read_error(target: str) -> int:
    """The number of the error that would keep a file from being read; 0 if there is none."""
    if not os.path.exists(target):
        return errno.ENOENT
    if os.path.isdir(target):
        return errno.EISDIR
    return 0 if os.access(target, os.R_OK) else errno.EACCES

"""The file of --output. It is refused, if it cannot be written, before the user types anything that would be lost."""

from __future__ import annotations

import errno
import os
from argparse import Namespace
from functools import partial

from ansible_vault_companions import exit_status, output
from ansible_vault_companions.alias.command_line import DECRYPT, NAME, STANDARD_INPUT
from ansible_vault_companions.alias.file_paths import STATUS_NOT_OPENED, resolve_new
from ansible_vault_companions.files import reading
from ansible_vault_companions.quoting import escape
from ansible_vault_companions.refusals import Refused


def resolve_output(args: Namespace) -> None:
    """Puts the real path of --output in place of that which was given. Refuses one that cannot be written."""
    path: str | None = getattr(args, "output", None)
    if path is None or path == STANDARD_INPUT:
        return
    args.output = resolve_new(path)
    number = _find_write_error(args.output)
    if number:
        raise Refused(f"{escape(path)}: {os.strerror(number)}", STATUS_NOT_OPENED)


def _find_write_error(target: str) -> int:
    """The number of the error that would keep a file from being written; 0 if there is none."""
    try:
        os.stat(target)
    except FileNotFoundError:
        return 0 if os.access(os.path.dirname(target), os.W_OK | os.X_OK) else errno.EACCES
    except OSError as fault:
        return fault.errno or errno.EIO
    if os.path.isdir(target):
        return errno.EISDIR
    return 0 if os.access(target, os.W_OK) else errno.EACCES


def write_output(args: Namespace, content: bytes) -> int:
    """Writes to the file of --output, or to standard output. Returns the exit status."""
    path: str | None = getattr(args, "output", None)
    if path is None or path == STANDARD_INPUT:
        output.write_data(content)
        return 0
    return exit_status.attempt_work(NAME, path, partial(_replace_output, path, content, args.command == DECRYPT))


def _replace_output(target: str, content: bytes, is_private: bool) -> None:
    if _is_written_in_place(target):
        with open(target, "wb") as file:
            file.write(content)
    else:
        # Imported here, since most runs replace no file.
        from ansible_vault_companions.files import replacing

        # Anybody may have made the file, in a directory such as /tmp, and its owner could read plaintext.
        replacing.replace(target, content, reading.read(target), is_private, keeps_owner=not is_private)


def _is_written_in_place(target: str) -> bool:
    """Whether a path is that of a device, or of an open file such as /dev/stdout, which no other file replaces."""
    return os.path.exists(target) and not (os.path.isfile(target) and os.path.realpath(target) == target)

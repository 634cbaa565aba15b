"""Reads files, up to a limit."""

from __future__ import annotations

import errno
import os
import stat
from collections.abc import Iterator
from io import FileIO
from select import select

from ansible_vault_companions.limits import LONGEST_VAULT
from ansible_vault_companions.refusals import Refused

# Bytes to read at once, since a file may be huge. Some files in /proc refuse reads of an odd size.
CHUNK_SIZE = 1 << 20
NOT_REGULAR = "it is not a regular file"


class TooLong(OSError):
    """A file is longer than the limit."""


def read(path: str) -> bytes | None:
    """The content of the file at a path, or None if there is no file."""
    try:
        with open_regular(path) as file:
            return read_whole(file, path)
    except FileNotFoundError:
        return None


def read_existing(path: str) -> bytes:
    """The content of a file that must exist."""
    with open_regular(path) as file:
        return read_whole(file, path)


def read_if_begins(path: str, beginning: bytes) -> bytes:
    """The content of a file that must exist, if it begins with these bytes; otherwise, nothing."""
    with open_regular(path) as file:
        piece = next(read_parts(file), b"")
        return read_whole(file, path) if piece.startswith(beginning) else b""


def read_input(file: str | int) -> bytes:
    """The whole of an input such as standard input, or a bit more than any vault has. Waits if another program has set
    it not to wait for data."""
    pieces: list[bytes] = []
    left = LONGEST_VAULT + 1
    with open(file, "rb", buffering=0, closefd=file != 0) as stream:
        while left > 0:
            piece = stream.read(min(left, CHUNK_SIZE))
            if piece == b"":
                break
            if piece is None:
                select([stream], [], [])
            else:
                pieces.append(piece)
                left -= len(piece)
    return b"".join(pieces)


def read_pieces(path: str) -> Iterator[bytes]:
    """Yields the content of a file, up to its stated size if that exceeds LONGEST_VAULT."""
    with open_regular(path) as file:
        yield from read_parts(file, max(LONGEST_VAULT, os.fstat(file.fileno()).st_size))


def read_whole(file: FileIO, path: str) -> bytes:
    """The content of a file. Raises TooLong, and reads nothing of a file whose stated size exceeds the limit."""
    is_longer = os.fstat(file.fileno()).st_size > LONGEST_VAULT
    content = b"" if is_longer else b"".join(read_parts(file, LONGEST_VAULT + 1))
    if is_longer or len(content) > LONGEST_VAULT:
        raise TooLong(errno.EFBIG, f"it has more than {LONGEST_VAULT:,} bytes, more than any vault", path)
    return content


def read_parts(file: FileIO, limit: int = LONGEST_VAULT) -> Iterator[bytes]:
    """Yields the content of a file from its beginning, up to the limit."""
    file.seek(0)
    while limit > 0 and (piece := file.read(CHUNK_SIZE)):
        yield piece[:limit]
        limit -= len(piece)


def open_regular(path: str) -> FileIO:
    """Opens a regular file for reading. Refuses anything else: opening a pipe might wait forever, and a link may have
    taken the place of the file since its path was resolved."""
    try:
        descriptor = os.open(path, os.O_RDONLY | os.O_NOFOLLOW | os.O_NONBLOCK | os.O_NOCTTY)
    except OSError as fault:
        if fault.errno == errno.ELOOP:
            raise Refused(NOT_REGULAR) from None
        raise
    mode = os.fstat(descriptor).st_mode
    if stat.S_ISREG(mode):
        return open(descriptor, "rb", buffering=0)
    os.close(descriptor)
    if stat.S_ISDIR(mode):
        raise IsADirectoryError(errno.EISDIR, os.strerror(errno.EISDIR), path)
    raise Refused(NOT_REGULAR)

"""Pointers, which git-lfs stores in place of files. What a file has cannot be told from its pointer."""

from __future__ import annotations

from ansible_vault_companions.refusals import Refused

# How a pointer begins.
POINTER_START = b"version https://git-lfs.github.com/spec/"


class Pointer(Refused):
    """A file is a pointer of git-lfs."""

    def __init__(self) -> None:
        super().__init__("it is a pointer of git-lfs, which says nothing about the file; `git lfs pull` gets the file")


def refuse_pointer(data: bytes) -> None:
    if data.startswith(POINTER_START):
        raise Pointer

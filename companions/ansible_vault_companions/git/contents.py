"""Reads the contents of blobs with one git process."""

from __future__ import annotations

import subprocess
from typing import NamedTuple

from ansible_vault_companions.envelopes.header import MAGIC
from ansible_vault_companions.git.commands import start_git
from ansible_vault_companions.limits import LONGEST_PLAINTEXT
from ansible_vault_companions.refusals import Refused

COMMAND = "cat-file"
ENDED = f"git {COMMAND} failed: it ended too early"


class Content(NamedTuple):
    length: int
    # The whole, or the first word of what is too long.
    data: bytes

    @property
    def is_cut(self) -> bool:
        return len(self.data) < self.length


class Contents:
    def __enter__(self) -> Contents:
        self._start()
        return self

    def __exit__(self, *_: object) -> None:
        self._stop()

    def _start(self) -> None:
        self.git = start_git((COMMAND, "--batch"), stdin=subprocess.PIPE, stdout=subprocess.PIPE)

    def _stop(self) -> None:
        # git only reads, so it may be terminated at any point.
        self.git.terminate()
        self.git.communicate()

    def read(self, blob: str) -> Content:
        assert self.git.stdin and self.git.stdout
        try:
            self.git.stdin.write(blob.encode() + b"\n")
            self.git.stdin.flush()
        except BrokenPipeError:
            raise Refused(ENDED) from None
        words = self.git.stdout.readline().split()
        if len(words) != 3:
            raise Refused(f"git {COMMAND} failed: it does not give {blob}; in a partial clone, fetch it first")
        length = int(words[2])
        is_long = length > LONGEST_PLAINTEXT
        # A line end follows the content.
        wanted = len(MAGIC) if is_long else length + 1
        data = self.git.stdout.read(wanted)
        if len(data) < wanted:
            raise Refused(ENDED)
        if is_long:
            # Nobody reads the rest.
            self._stop()
            self._start()
        return Content(length, data if is_long else data[:-1])

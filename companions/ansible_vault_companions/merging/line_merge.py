"""Merges three versions of a text by lines, as git does."""

from __future__ import annotations

import os
from typing import NamedTuple

from ansible_vault_companions.envelopes.conflicts import END_MARKER, join_sides
from ansible_vault_companions.envelopes.header import MAGIC
from ansible_vault_companions.git import commands
from ansible_vault_companions.refusals import Refused

# The names of the sides in git's conflict markers.
OURS = "ours"
BASE = "base"
THEIRS = "theirs"
SIDES = (OURS, BASE, THEIRS)
# The status of `git merge-file` is the number of conflicts, up to this, or that of a text that git does not merge. Any
# other means failure. So does one without as many conflicts in the text.
MOST_CONFLICTS = 127
NOT_MERGED = 255
END_OF_CONFLICT = END_MARKER + b" " + THEIRS.encode()


class OneSideOnly(Refused):
    """Sides that an edit cannot merge either, so that one of them has to be taken as a whole."""


class Versions(NamedTuple):
    """Three versions of a file or of its text."""

    ours: bytes
    base: bytes
    theirs: bytes

    @property
    def are_vaults(self) -> list[bool]:
        """Whether ours is a vault, and whether theirs is one."""
        return [side.startswith(MAGIC) for side in (self.ours, self.theirs)]


class MergedLines(NamedTuple):
    text: bytes
    conflicts: int


def join_lines(versions: Versions) -> bytes:
    """Git's merge, with markers around what both sides changed or, without a base, around all that differs."""
    if not (versions.ours and versions.theirs):
        # Without a base, git would take the other one.
        return join_sides(versions.ours, versions.theirs)
    # With an empty base in each conflict, git would not look for lines that are the same.
    options = () if versions.base else ("-c", "merge.conflictStyle=merge")
    return merge_lines(versions, *options).text


def merge_lines(versions: Versions, *options: str) -> MergedLines:
    """The result of git's merge. The texts are passed in memory, never on disk."""
    files = [os.memfd_create("version") for _ in versions]
    for file, text in zip(files, versions):
        with open(file, "wb", closefd=False) as writer:
            writer.write(text)
    names = [word for side in SIDES for word in ("-L", side)]
    words = ["merge-file", "-p", *names, *(f"/proc/self/fd/{file}" for file in files)]
    try:
        done = commands.run_git_command(*options, *words, pass_fds=files)
    finally:
        for file in files:
            os.close(file)
    if done.returncode not in (*range(MOST_CONFLICTS + 1), NOT_MERGED):
        raise commands.make_refusal(words[0], done.returncode, done.stderr)
    if done.returncode > min(MOST_CONFLICTS, done.stdout.count(END_OF_CONFLICT)):
        raise OneSideOnly("git merge-file cannot merge it; it may be binary")
    return MergedLines(done.stdout, done.returncode)

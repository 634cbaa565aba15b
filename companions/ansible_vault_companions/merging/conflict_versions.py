"""The versions of a file that has a conflict: its sides, and their base in git's index."""

from __future__ import annotations

import os

from ansible_vault_companions.envelopes import conflicts
from ansible_vault_companions.files.link_bounds import find_repository
from ansible_vault_companions.git import commands
from ansible_vault_companions.merging.line_merge import Versions


def find_versions(target: str, data: bytes) -> Versions | None:
    """The sides of a file with a conflict, and their base if the index has this conflict; None if there is none."""
    sides = conflicts.split_sides(data)
    if not sides:
        return None
    ours, theirs = sides[conflicts.OURS_MARKER], sides[conflicts.THEIRS_MARKER]
    base, *stages = _read_stages(target)
    # Ends of lines may differ from those in the file.
    is_same = [stage.split() for stage in stages] == [ours.split(), theirs.split()]
    return Versions(ours, base if is_same else b"", theirs)


def _read_stages(target: str) -> list[bytes]:
    """Base, ours and theirs of a file in the index, each empty if the index has none."""
    folder = find_repository(os.path.dirname(target))
    if not folder:
        return [b"", b"", b""]
    name = os.path.relpath(target, folder)
    # Each entry is MODE OBJECT STAGE TAB NAME.
    entries = commands.list_records("ls-files", "--unmerged", "-z", "--", name, folder=folder)
    objects = {entry.split()[2]: entry.split()[1].decode() for entry in entries}
    stages = [objects.get(stage) for stage in (b"1", b"2", b"3")]
    return [commands.run_git("cat-file", "blob", each, folder=folder) if each else b"" for each in stages]

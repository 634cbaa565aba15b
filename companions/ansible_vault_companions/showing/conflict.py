"""Shows a file with a conflict in the layout of its sides, so that `git diff` shows what they differ in and no more."""

from __future__ import annotations

from collections.abc import Callable

from ansible_vault_companions.merging.line_merge import Versions, join_lines
from ansible_vault_companions.merging.conflict_versions import find_versions
from ansible_vault_companions.merging.vault_merge import VaultMerge
from ansible_vault_companions.refusals import Refused
from ansible_vault_companions.showing import first_line
from ansible_vault_companions.tool import Decrypt


def show_conflict(
    target: str, data: bytes, decrypt: Decrypt, show: Callable[[bytes], list[bytes]]
) -> list[bytes] | None:
    """What is shown of a file with a whole conflict: two vaults as the merge of their texts, and two other sides with
    markers around the lines in which they differ. None for any other file, and if they cannot be merged."""
    try:
        sides = find_versions(target, data)
        if not sides:
            return None
        if not any(sides.are_vaults):
            return _join_sides(sides, show)
        return _merge_vaults(sides, decrypt) if all(sides.are_vaults) else None
    except Refused:
        return None


def _merge_vaults(sides: Versions, decrypt: Decrypt) -> list[bytes]:
    vaults = VaultMerge(decrypt, sides)
    labels = dict.fromkeys((vaults.ours.label, vaults.theirs.label))
    return [first_line.describe_vault(" and ".join(labels)), vaults.merged_lines.text]


def _join_sides(sides: Versions, show: Callable[[bytes], list[bytes]]) -> list[bytes]:
    """The sides as they are shown by themselves, each with its first line, below that of ours."""
    (first, ours), (_, theirs) = show(sides.ours), show(sides.theirs)
    return [first, join_lines(Versions(ours, b"", theirs))]

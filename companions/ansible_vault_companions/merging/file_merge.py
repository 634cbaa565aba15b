"""Merges three versions of a file: as a vault, or as any other file with envelopes.

What cannot be merged becomes a conflict of whole envelopes, so nothing is decrypted into the file.
"""

from __future__ import annotations

from typing import NamedTuple

from ansible_vault_companions.envelopes import conflicts
from ansible_vault_companions.envelopes.header import MAGIC
from ansible_vault_companions.envelopes.pointers import Pointer, refuse_pointer
from ansible_vault_companions.merging.line_merge import MOST_CONFLICTS, OneSideOnly, Versions
from ansible_vault_companions.merging.value_merge import merge_values
from ansible_vault_companions.merging.vault_merge import VaultMerge
from ansible_vault_companions.passwords.labels import Credential
from ansible_vault_companions.refusals import Refused
from ansible_vault_companions.tool import Decrypt, Tool

NOT_MERGED = "not merged, so both sides are whole in the file: {}"
# What to do with a conflict in the file that this pathspec names.
TAKE_SIDE = "take one side with `git checkout --ours -- {}` or with `--theirs`"
RESOLVE = f"resolve with ansible-vault-edit, or {TAKE_SIDE}"
KINDS_DIFFER = "one side is a vault and the other is not"


class MergedFile(NamedTuple):
    content: bytes
    # Why it has a conflict, empty if it has none; and what to do then.
    why: str = ""
    advice: str = RESOLVE


def merge_file(tool: Tool, decrypt: Decrypt, versions: Versions, chosen: Credential | None) -> MergedFile:
    """The merged file, with markers around what could not be merged. The chosen credential counts only if it is unclear
    which password a text gets."""
    ours, base, theirs = versions
    # git itself does so first, but not where it reuses a resolution, with a conflict as base and ours.
    if base in (ours, theirs) or ours == theirs:
        return MergedFile(theirs if base == ours else ours)
    try:
        for text in versions:
            refuse_pointer(text)
        if all(versions.are_vaults):
            return MergedFile(_merge_vaults(tool, decrypt, versions, chosen))
        if any(versions.are_vaults):
            raise OneSideOnly(KINDS_DIFFER)
        return _merge_file_with_values(tool, decrypt, versions, chosen)
    except Refused as fault:
        advice = TAKE_SIDE if isinstance(fault, (OneSideOnly, Pointer)) else RESOLVE
        return MergedFile(conflicts.join_sides(ours, theirs), NOT_MERGED.format(fault), advice)


def _merge_vaults(tool: Tool, decrypt: Decrypt, versions: Versions, chosen: Credential | None) -> bytes:
    vaults = VaultMerge(decrypt, versions)
    credential = vaults.choose_credential(chosen)
    if vaults.merged_lines.conflicts:
        raise Refused(vaults.why)
    return vaults.encrypt(tool, vaults.merged_lines.text, credential)


def _merge_file_with_values(tool: Tool, decrypt: Decrypt, versions: Versions, chosen: Credential | None) -> MergedFile:
    if versions.base.startswith(MAGIC) or conflicts.is_unmerged(versions.base):
        # A base that was a vault has no lines for a conflict. One that is a conflict, as in a crossed history, is none.
        versions = versions._replace(base=b"")
    merged = merge_values(tool, decrypt, versions, chosen)
    if merged.conflicts == 0:
        return MergedFile(merged.content)
    return MergedFile(merged.content, "; ".join(filter(None, [_describe_conflicts(merged.conflicts), merged.why])))


def _describe_conflicts(count: int) -> str:
    """The number of conflicts, as far as git says it."""
    if count == MOST_CONFLICTS:
        return f"{count} conflicts or more"
    return f"{count} conflicts" if count > 1 else "1 conflict"

"""An envelope has no damage, its file no conflict markers, and the tag of an envelope nothing else."""

from __future__ import annotations

from ansible_vault_companions.git.changes import File
from ansible_vault_companions.guard.evidence import Evidence, Finding

RESOLVE = "resolve the conflict, for example with ansible-vault-edit"
RESTORE = "restore it, for example with `git checkout HEAD -- {path}`"
ENCRYPT = "encrypt the text with ansible-vault-edit, or remove the tag"


def check_file(evidence: Evidence, file: File) -> Finding | None:
    now = evidence.known.search(file.blob)
    if evidence.is_example(file):
        return None
    if now.damage:
        return Finding(now.damage, RESOLVE if now.is_unmerged else RESTORE)
    return Finding(now.tagged, ENCRYPT) if now.tagged else None

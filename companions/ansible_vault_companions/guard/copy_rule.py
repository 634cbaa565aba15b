"""A new file that has the length of a vault's text, and its name or place, is a copy in plaintext. So may be what a
companion leaves behind if it is killed."""

from __future__ import annotations

import os

from ansible_vault_companions.envelopes.header import measure_padded
from ansible_vault_companions.files.leftovers import is_leftover
from ansible_vault_companions.git.changes import File, split_path
from ansible_vault_companions.guard.evidence import Evidence, Finding, list_names
from ansible_vault_companions.quoting import escape

LEFTOVER = "is a temporary file of a companion that was killed, and may be plaintext"
COPY = "is not encrypted, and is as long as the text of the vault {}"
REMEDY = "encrypt it, or leave it out with `git rm --cached -- {path}`"
# How a file beside a vault may end that only shows what the vault has.
TEMPLATE = b".j2"
EXAMPLES = frozenset([b".example", b".sample", b".template", b".dist", TEMPLATE])
# What a template has in place of a secret.
EXPRESSION = b"{{"


def check_file(evidence: Evidence, file: File) -> Finding | None:
    if is_leftover(os.path.basename(os.fsdecode(file.name))):
        return Finding(LEFTOVER, REMEDY)
    if file not in evidence.new_plaintexts:
        return None
    content = evidence.known.contents.read(file.blob)
    suffix = os.path.splitext(file.name)[1]
    if suffix == TEMPLATE and EXPRESSION in content.data:
        return None
    length = measure_padded(content.length)
    vault = _find_removed(evidence, file, length)
    if not vault and suffix not in EXAMPLES:
        vault = evidence.find_vault_near(file, length)
    if vault and not evidence.known.read(file.blob).is_empty:
        return Finding(COPY.format(escape(os.fsdecode(vault.name))), REMEDY)
    return None


def _find_removed(evidence: Evidence, file: File, length: int) -> File | None:
    """A vault that is gone from the place of a file."""
    paths = _list_former_paths(file.name)
    for vault in evidence.removed_vaults:
        if evidence.known.measure(vault.blob) == length and not paths.isdisjoint(_list_former_paths(vault.name)):
            return vault
    return None


def _list_former_paths(path: bytes) -> set[bytes]:
    """The directory, the path without a suffix, and the name alone. Two files have one of these in common if a vault
    `x.yml` becomes `y.yml`, `x/main.yml` or `other/x.yaml`."""
    folder, name = split_path(path.lower())
    folder, names = os.path.join(folder, b""), list_names(name)
    return {folder, *(folder + each + b"/" for each in names), *names}

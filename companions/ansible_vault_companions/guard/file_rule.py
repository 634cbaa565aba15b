"""A file that was a vault, or is marked, is encrypted, empty or gone. So is a new one that has the name of a vault."""

from __future__ import annotations

import os

from ansible_vault_companions.envelopes.damage import NOT_ENCRYPTED
from ansible_vault_companions.envelopes.file_kinds import is_yaml
from ansible_vault_companions.git.changes import File
from ansible_vault_companions.guard.evidence import Evidence, Finding, may_have_variables

WAS_VAULT = f"{NOT_ENCRYPTED}, but was a vault in {{}}"
NAMED = f"{NOT_ENCRYPTED}, but has the name of a vault"
REMEDY = "encrypt it"
# Where Ansible reads variables, and the names that its guide and many teams give to vaults there.
FOLDERS = {b"group_vars", b"host_vars"}
# The secrets of a test may be plaintext.
TESTS = {b"molecule", b"tests"}
VAULT = b"vault"
NAMES = (VAULT, b"vault.yml", b"vault.yaml")
SUFFIX = b".vault.yml"


def check_file(evidence: Evidence, file: File) -> Finding | None:
    was_vault = evidence.known.search(file.before).is_vault
    is_marked = evidence.is_marked(file)
    if not (was_vault or is_marked or file in evidence.new_plaintexts and has_vault_name(file.name)):
        return None
    unencrypted = evidence.known.search(file.blob).unencrypted
    if not unencrypted or is_yaml(os.fsdecode(file.name)) and evidence.known.read(file.blob).is_empty:
        return None
    if was_vault:
        return Finding(WAS_VAULT.format(evidence.since), REMEDY)
    return Finding(unencrypted if is_marked else NAMED, REMEDY)


def has_vault_name(path: bytes) -> bool:
    *folders, name = path.split(b"/")
    if TESTS.intersection(folders) or name.startswith(b".") or not may_have_variables(name):
        return False
    for number, folder in enumerate(folders):
        if folder in FOLDERS:
            return name in NAMES or name.endswith(SUFFIX) or VAULT in folders[number:]
    return False

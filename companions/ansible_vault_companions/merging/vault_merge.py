"""Merges three versions of a vault: their plaintexts, line by line."""

from __future__ import annotations

from ansible_vault_companions.envelopes import conflicts
from ansible_vault_companions.envelopes.header import MAGIC
from ansible_vault_companions.merging.line_merge import OURS, THEIRS, Versions, merge_lines
from ansible_vault_companions.merging.result_credential import VersionCredentials, choose_vault_credential
from ansible_vault_companions.passwords.labels import Credential
from ansible_vault_companions.refusals import Refused
from ansible_vault_companions.tool import Decrypt, Decryption, NotDecrypted, Tool


class VaultMerge:
    """The vaults of two sides, and the text of their base, which need not be a vault."""

    def __init__(self, decrypt: Decrypt, versions: Versions) -> None:
        # Why their merge may have a conflict.
        self.why = "both sides changed the same or adjacent lines"
        self.ours = _decrypt_side(OURS, decrypt, versions.ours)
        self.theirs = _decrypt_side(THEIRS, decrypt, versions.theirs)
        text, self.base_credentials = self._decrypt_base(decrypt, versions.base)
        texts = Versions(self.ours.plaintext, text, self.theirs.plaintext)
        self.merged_lines = merge_lines(texts)

    def choose_credential(self, chosen: Credential | None) -> Credential:
        ours, theirs = self.ours.require_credential(), self.theirs.require_credential()
        return choose_vault_credential(ours, self.base_credentials, theirs, chosen)

    def encrypt(self, tool: Tool, text: bytes, credential: Credential) -> bytes:
        """The vault of a side, if it has this text under this credential, or else a new one."""
        for vault in (self.ours, self.theirs):
            if (vault.plaintext, vault.require_credential()) == (text, credential):
                return vault.envelope
        return tool.encrypt(text, credential)

    def _decrypt_base(self, decrypt: Decrypt, data: bytes) -> tuple[bytes, VersionCredentials]:
        """The text of the base, and its credentials. One that is a conflict, as in a crossed history, counts as
        none. It has no credential if its password may not encrypt again, as those of the sides may."""
        if not data.startswith(MAGIC):
            return b"" if conflicts.is_unmerged(data) else data, set()
        try:
            vault = decrypt(data)
        except NotDecrypted as fault:
            self.why = f"base: {fault}"
            return b"", set()
        try:
            return vault.plaintext, {vault.require_credential()}
        except Refused:
            return vault.plaintext, set()


def _decrypt_side(side: str, decrypt: Decrypt, vault: bytes) -> Decryption:
    try:
        decrypted = decrypt(vault)
        decrypted.require_credential()
    except Refused as fault:
        raise Refused(f"{side}: {fault}") from None
    return decrypted

"""What an editor can open: a vault, YAML with values, or a conflict of either."""

from __future__ import annotations

from dataclasses import dataclass
from functools import partial
from typing import Protocol

from ansible_vault_companions.editing.encrypting_password import Choice
from ansible_vault_companions.editing.matching import describe_place
from ansible_vault_companions.editing.yaml_draft import ENCRYPTED, Saved, YamlDraft, YamlText
from ansible_vault_companions.envelopes import conflicts, detection
from ansible_vault_companions.envelopes.header import MAGIC
from ansible_vault_companions.envelopes.pointers import refuse_pointer
from ansible_vault_companions.files import link_bounds, reading
from ansible_vault_companions.git.pathspecs import make_pathspec
from ansible_vault_companions.merging.file_merge import KINDS_DIFFER, TAKE_SIDE
from ansible_vault_companions.merging.line_merge import Versions, join_lines
from ansible_vault_companions.merging.conflict_versions import find_versions
from ansible_vault_companions.merging.vault_merge import VaultMerge
from ansible_vault_companions.passwords.labels import Credential, Policy
from ansible_vault_companions.passwords.password import Password
from ansible_vault_companions.quoting import escape
from ansible_vault_companions.refusals import Refused
from ansible_vault_companions.tool import Tool

NOTHING_TO_EDIT = (
    "it is not a vault, and no value in it has the tag `!vault`; encrypt it with `ansible-vault-with encrypt`, or "
    "write `NAME: !vault TEXT` in it for a single value and run this again"
)
ONE_SIDE = f"{KINDS_DIFFER}; {TAKE_SIDE}"
TO_ADD = "; or, to add values without seeing the others, choose a password for the new ones with --encrypt-vault-id"


class Draft(Protocol):
    """A text to change, and how the file becomes what was saved."""

    @property
    def target(self) -> str:
        """The path of the file."""

    @property
    def content(self) -> bytes | None:
        """What the file has; None if there is none."""

    @property
    def plaintext(self) -> bytes:
        """The text to change."""

    @property
    def credential(self) -> Credential | None:
        """The credential of the whole text, which may read a copy; None if it has several passwords, or may have."""

    def is_as_it_was(self, text: bytes) -> bool:
        """Whether the file may stay if this is saved."""

    def encrypt(self, tool: Tool, text: bytes) -> Saved:
        """What the file becomes if this is saved, and what is to be said of it."""


@dataclass
class VaultDraft:
    """A vault, or a new one. It keeps its password, its label and its line ends."""

    target: str
    content: bytes | None
    credential: Credential
    plaintext: bytes = b""

    def is_as_it_was(self, text: bytes) -> bool:
        return text == self.plaintext

    def encrypt(self, tool: Tool, text: bytes) -> Saved:
        vault = tool.encrypt(text, self.credential)
        if self.content is None:
            return Saved(vault, [ENCRYPTED.format("the new vault", escape(self.credential.label))])
        return Saved(vault.replace(b"\n", b"\r\n") if b"\r\n" in self.content else vault, [])


class ConflictDraft:
    """A file with two vaults between markers. Their texts are merged, and what is saved becomes one vault."""

    def __init__(self, target: str, content: bytes, vaults: VaultMerge, credential: Credential) -> None:
        self.target = target
        self.content = content
        self.vaults = vaults
        self.credential = credential
        self.plaintext = vaults.merged_lines.text

    def is_as_it_was(self, text: bytes) -> bool:
        return text == self.plaintext and self.vaults.merged_lines.conflicts > 0

    def encrypt(self, tool: Tool, text: bytes) -> Saved:
        ours, theirs = (conflicts.count_markers(side.plaintext) for side in (self.vaults.ours, self.vaults.theirs))
        if conflicts.count_markers(text) - (ours | theirs):
            raise Refused(conflicts.STILL)
        return Saved(self.vaults.encrypt(tool, text, self.credential), [])


class Loader:
    """Makes the draft for a file. Refuses one whose text could not be encrypted again."""

    def __init__(self, tool: Tool, passwords: list[Password], policy: Policy, label: str | None) -> None:
        self.tool = tool
        self.decrypt = partial(tool.decrypt, passwords=passwords, policy=policy)
        self.choice = Choice(passwords, label, policy.usual_label)

    def load(self, target: str) -> Draft:
        """The draft for the file at a real path."""
        content = reading.read(target)
        refuse_pointer(content or b"")
        if content is None:
            link_bounds.require_folder(target)
            return VaultDraft(target, None, self.choice.choose_credential("the new vault", "the vault"))
        if conflicts.is_unmerged(content):
            versions = find_versions(target, content)
            if not versions:
                raise Refused(conflicts.LONG)
            return self._load_conflict(target, content, versions)
        if content.startswith(MAGIC):
            decrypted = self.decrypt(content)
            return VaultDraft(target, content, decrypted.require_credential(), decrypted.plaintext)
        return self._load_values(target, content)

    def _load_conflict(self, target: str, content: bytes, versions: Versions) -> Draft:
        if all(versions.are_vaults):
            vaults = VaultMerge(self.decrypt, versions)
            chosen = self.choice.find_credential() if self.choice.chosen is not None else None
            credential = vaults.choose_credential(chosen)
            credential.password.confirm()
            return ConflictDraft(target, content, vaults, credential)
        if any(versions.are_vaults):
            raise Refused(ONE_SIDE.format(make_pathspec(target)))
        ours, theirs = YamlText(versions.ours, self.decrypt), YamlText(versions.theirs, self.decrypt)
        text = join_lines(Versions(ours.shown.data, self._show_base(versions.base), theirs.shown.data))
        return self._make_yaml_draft(target, content, [ours, theirs], text, versions.base)

    def _show_base(self, base: bytes) -> bytes:
        """The base as the sides are shown. One that cannot be read counts as none."""
        try:
            return YamlText(base, self.decrypt).shown.data if not base.startswith(MAGIC) else b""
        except Refused:
            return b""

    def _load_values(self, target: str, content: bytes) -> Draft:
        if not detection.may_have_envelope(content):
            raise Refused(NOTHING_TO_EDIT)
        side = YamlText(content, self.decrypt)
        return self._make_yaml_draft(target, content, [side], side.shown.data)

    def _make_yaml_draft(
        self, target: str, content: bytes, sides: list[YamlText], plaintext: bytes, base: bytes = b""
    ) -> YamlDraft:
        draft = YamlDraft(target, content, sides, plaintext, self.choice, base)
        if not draft.tagged:
            raise Refused(NOTHING_TO_EDIT)
        if len(draft.faults) == len(draft.tagged) and draft.choice.label is None:
            value, why = draft.faults[0]
            raise Refused(f"{describe_place(value)}: {why}{TO_ADD}")
        passwords = draft.choice.list_new_passwords()
        if len(passwords) == 1:
            # Before somebody types a text for it.
            passwords[0].confirm()
        return draft

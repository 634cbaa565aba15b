"""A YAML file whose encrypted values an edit shows in plaintext, and encrypts again.

What is saved is read once. Values are found again by their keys, and all else is the user's own plaintext.
"""

from __future__ import annotations

from collections.abc import Iterator
from typing import NamedTuple

from ansible_vault_companions.editing.encrypting_password import Choice
from ansible_vault_companions.editing.lost_tags import find_lost
from ansible_vault_companions.editing.matching import (
    DecryptedValue,
    Match,
    describe_place,
    find_changed_lists,
    find_matches,
)
from ansible_vault_companions.editing.typed_tags import check_typed_tags, find_other_tags, refuse_directive
from ansible_vault_companions.envelopes import conflicts
from ansible_vault_companions.envelopes.header import MAGIC
from ansible_vault_companions.envelopes.layout import (
    NOT_UTF_8,
    Replacement,
    drop_blanks,
    find_column,
    find_line_end,
    put_envelope,
    put_in_quotes,
    put_plaintext,
)
from ansible_vault_companions.envelopes.node import FOLDED, LITERAL, PLAIN, Node
from ansible_vault_companions.envelopes.parsed_text import ParsedYaml, require_nodes
from ansible_vault_companions.parallel import work_at_once
from ansible_vault_companions.passwords.labels import Credential, choose_credential
from ansible_vault_companions.quoting import escape
from ansible_vault_companions.refusals import Refused
from ansible_vault_companions.tool import Decrypt, Tool

NOT_A_STRING = "is a list, a mapping or a key, not a string; put quotes around a text"
NOTHING_TYPED = 'is missing after `!vault`; write `""` for an empty one'
LIKE_A_VAULT = "begins like a vault ($ANSIBLE_VAULT), but is not one, so ansible-vault does not encrypt it"
# What is said of a saved text.
ENCRYPTED = "encrypted {} (label {})"
IN_PLAINTEXT, TEXT_IN_PLAINTEXT = "{} is now plaintext", "the old text of {} is now plaintext"
OTHER_TAG = "{} has no tag `!vault`, so it is plaintext"


class Saved(NamedTuple):
    """What a file becomes if a text is saved, and what is to be said of it."""

    content: bytes
    notes: list[str]


class YamlText:
    """The text of a file, or of a side of a conflict, with plaintext in place of the values that can be opened."""

    def __init__(self, data: bytes, decrypt: Decrypt) -> None:
        refuse_directive(data)
        parsed = require_nodes(data)
        self.data = data
        self.tagged = [value for value in parsed.nodes if value.is_tagged]
        results = work_at_once(lambda value: _try_to_open(data, value, decrypt), self.tagged)
        # The values that are shown in plaintext; and those that stay encrypted, and why.
        self.opened = [each for each in results if isinstance(each, DecryptedValue)]
        self.faults = [(value, why) for value, why in zip(self.tagged, results) if isinstance(why, Refused)]
        self.shown = self._show(parsed)

    def _show(self, parsed: ParsedYaml) -> ParsedYaml:
        """The text with blocks where they can be, or else, if a comment below one would be part of it, without any."""
        texts = {old.value: old.text for old in self.opened}
        try:
            return parsed.rewrite([change for old in self.opened for change in _make_block(self.data, old)], texts)
        except Refused:
            return parsed.rewrite([put_in_quotes(old.value, old.text.decode()) for old in self.opened], texts)


class YamlDraft:
    """A file with values that are encrypted or will be; or the sides of a conflict in it, which are merged as they are
    shown."""

    def __init__(
        self, target: str, content: bytes, sides: list[YamlText], plaintext: bytes, choice: Choice, base: bytes = b""
    ) -> None:
        self.target = target
        self.content: bytes | None = content
        self.sides = sides
        self.plaintext = plaintext
        self.tagged = [value for side in sides for value in side.tagged]
        # Where both sides have a text, it keeps the first envelope: that of a side that has changed it.
        self.opened = sorted((old for side in sides for old in side.opened), key=lambda old: old.scalar in base)
        self.faults = [fault for side in sides for fault in side.faults]
        labels = {value.label for value in self.tagged if value.is_envelope}
        credentials = {old.require_credential() for old in self.opened}
        of_values = credentials.pop() if len(credentials) == len(labels) == 1 else None
        self.choice = choice._replace(credential_of_values=of_values, in_conflict=len(sides) > 1)

    @property
    def credential(self) -> Credential | None:
        """The credential of the whole text, with new values; None if they have several passwords, or may have."""
        new = self.choice.list_new_passwords()
        passwords = [*(old.decrypted.password for old in self.opened), *new]
        if not new or len({password.content for password in passwords}) > 1:
            return None
        return self.opened[0].require_credential() if self.opened else choose_credential(new[:1])

    def is_as_it_was(self, text: bytes) -> bool:
        is_done = len(self.sides) == 1 and all(value.is_envelope for value in self.tagged)
        return text == self.plaintext and (is_done or conflicts.is_unmerged(text))

    def encrypt(self, tool: Tool, text: bytes) -> Saved:
        if conflicts.is_unmerged(text):
            raise Refused(conflicts.STILL)
        refuse_directive(text)
        after = require_nodes(text)
        closed = {value.text for value, _ in self.faults}
        typed = [value for value in after.nodes if value.is_tagged and not _stays_encrypted(value, closed)]
        for value in typed:
            _require_text(value)
        shown = [side.shown for side in self.sides]
        check_typed_tags(shown, after)
        matches = find_matches(self.opened, typed, self.choice, find_changed_lists(shown, after))
        envelopes = work_at_once(lambda pair: _seal(tool, *pair), zip(typed, matches))
        changes = [change for pair in zip(typed, matches, envelopes) for change in _write(text, *pair)]
        saved = after.rewrite(changes, dict(zip(typed, envelopes)))
        return Saved(saved.data, [*_describe_encrypted(typed, matches), *self._describe_plaintext(saved, matches)])

    def _describe_plaintext(self, saved: ParsedYaml, matches: list[Match]) -> Iterator[str]:
        """Names the values that have lost their tag, and the new ones with something like it."""
        shown = [side.shown for side in self.sides]
        kept = {match.kept for match in matches}
        for value, is_at_key in find_lost([old for old in self.opened if old not in kept], shown, saved):
            yield (IN_PLAINTEXT if is_at_key else TEXT_IN_PLAINTEXT).format(_describe_path(value))
        for value in find_other_tags([node for side in shown for node in side.nodes], saved.nodes):
            yield OTHER_TAG.format(_describe_path(value))


def _describe_encrypted(typed: list[Node], matches: list[Match]) -> Iterator[str]:
    """Names the values that have been encrypted, with the label of each."""
    for value, match in zip(typed, matches):
        if match.credential:
            yield ENCRYPTED.format(_describe_path(value), escape(match.credential.label))


def _describe_path(value: Node) -> str:
    return escape(value.typed_path) or "the document"


def _try_to_open(data: bytes, value: Node, decrypt: Decrypt) -> DecryptedValue | Refused | None:
    """A value in plaintext, or why it stays encrypted; None if it is not encrypted yet."""
    if not value.is_envelope:
        return None
    try:
        decrypted = decrypt(value.require_readable())
        decrypted.plaintext.decode()
    except UnicodeDecodeError:
        return Refused(NOT_UTF_8)
    except Refused as fault:
        return fault
    if decrypted.plaintext.strip().startswith(MAGIC):
        return Refused("its plaintext is itself a vault")
    return DecryptedValue(value, decrypted, data[value.scalar_start : value.end], find_column(data, value.scalar_start))


def _make_block(data: bytes, old: DecryptedValue) -> list[Replacement]:
    """A block becomes a block if its last line tells where it ends. Any other value gets double quotes."""
    has_end = old.text.strip() and old.text.rstrip() == old.text.removesuffix(b"\n")
    if old.value.style == LITERAL and has_end:
        return put_plaintext(data, old.value, old.text)
    return [put_in_quotes(old.value, old.text.decode())]


def _seal(tool: Tool, value: Node, match: Match) -> bytes:
    """The envelope of a typed value: the one that it had, or a new one."""
    if match.kept:
        return match.kept.value.text
    assert match.credential
    return tool.encrypt(value.text, match.credential)


def _write(data: bytes, value: Node, match: Match, envelope: bytes) -> list[Replacement]:
    """Writes an envelope. One that stays where it was is written as it was, if nothing follows in its line."""
    kept = match.kept
    if kept and (value.is_flow, find_column(data, value.scalar_start)) == (kept.value.is_flow, kept.column):
        if value.is_flow or not data[value.end : find_line_end(data, value.end)].strip():
            same = Replacement(value.scalar_start, value.end, kept.scalar)
            return [same, drop_blanks(data, value.end)] if kept.value.style == LITERAL else [same]
    return put_envelope(data, value, envelope)


def _stays_encrypted(value: Node, closed: set[bytes]) -> bool:
    """Whether a value is an envelope that was not opened, or was pasted whole."""
    return value.text.startswith(MAGIC) and (value.is_whole or value.text in closed)


def _require_text(value: Node) -> None:
    """Refuses what is no text that can be encrypted."""
    if not value.is_text or value.is_key:
        raise Refused(f"{describe_place(value)} {NOT_A_STRING}")
    if value.style in (PLAIN, LITERAL, FOLDED) and not value.text:
        raise Refused(f"{describe_place(value)} {NOTHING_TYPED}")
    if value.text.startswith(MAGIC):
        raise Refused(f"{describe_place(value)} {LIKE_A_VAULT}")

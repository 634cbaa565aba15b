"""What can be wrong with a file: damage, conflict markers, plaintext with an envelope's tag, or nothing encrypted."""

from __future__ import annotations

from ansible_vault_companions.envelopes import conflicts, header
from ansible_vault_companions.envelopes.header import HEADER
from ansible_vault_companions.envelopes.parsed_text import ParsedText

NOT_ENCRYPTED = "is not encrypted"
NOT_READ = "cannot be checked: {}"
TAGGED = "has plaintext with the tag `!vault` in line {}"
DAMAGED_VAULT = "is a damaged vault"
DAMAGED_VALUE = "has a damaged value in line {}"


def is_unmerged(parsed: ParsedText) -> bool:
    """Whether git's conflict markers are in an envelope or beside one, even if git has torn it."""
    return conflicts.is_unmerged(parsed.data) and bool(parsed.values or HEADER in parsed.data)


def find_damage(parsed: ParsedText) -> str:
    """What is wrong with the envelopes of a file; empty if nothing is."""
    if is_unmerged(parsed):
        return conflicts.UNMERGED
    if parsed.is_vault:
        return "" if header.is_whole_envelope(parsed.data) else DAMAGED_VAULT
    for value in parsed.values:
        if value.is_envelope and not value.is_loose and not value.is_whole:
            return DAMAGED_VALUE.format(value.line)
    return ""


def find_tagged(parsed: ParsedText) -> str:
    """What is wrong with a text that has the tag of an envelope and is none; empty if there is no such text."""
    for value in parsed.values:
        if value.is_tagged and not value.is_envelope:
            return TAGGED.format(value.line)
    return ""


def find_unencrypted(parsed: ParsedText) -> str:
    """Why to refuse a file that is marked and not empty. The result is empty if nothing is wrong."""
    if not parsed.is_vault:
        if parsed.fault and parsed.values:
            return NOT_READ.format(parsed.fault)
        if all(value.is_elsewhere for value in parsed.envelopes):
            return NOT_ENCRYPTED
    return find_tagged(parsed) or find_damage(parsed)

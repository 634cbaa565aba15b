"""Finds the values that were encrypted before an edit and are in plaintext after it, wherever their texts are now: at
their keys, at others, in a comment, or as a part of another text."""

from __future__ import annotations

import re
from collections import defaultdict
from collections.abc import Iterable, Iterator
from typing import NamedTuple

from ansible_vault_companions.editing.matching import DecryptedValue
from ansible_vault_companions.envelopes.key_paths import KeyPath
from ansible_vault_companions.envelopes.layout import Replacement, apply_replacements
from ansible_vault_companions.envelopes.node import Node
from ansible_vault_companions.envelopes.parsed_text import ParsedYaml


class Lost(NamedTuple):
    """A value that was encrypted, and whether its key has plaintext now."""

    value: Node
    is_at_key: bool


def find_lost(gone: Iterable[DecryptedValue], before: list[ParsedYaml], after: ParsedYaml) -> Iterator[Lost]:
    """Those of the values whose envelope is gone that have lost their tag. What was in plaintext before, in the file or
    in a side of a conflict, does not count."""
    words_before = [_list_words(_leave_out_values(parsed)) for parsed in before]
    words_after = _list_words(_leave_out_values(after))

    def is_new(text: bytes) -> bool:
        words = _list_words(text)
        return _count(words, words_after) > max(_count(words, each) for each in words_before)

    at_path: dict[KeyPath, list[Node]] = defaultdict(list)
    for node in after.nodes:
        if not node.is_tagged and node.text.strip():
            at_path[node.path].append(node)
    for old in gone:
        # An item of a list may be at the place of another.
        others = at_path[old.value.path] if old.value.name or not old.value.path else []
        is_at_key = any(is_new(after.data[value.scalar_start : value.end]) for value in others)
        if is_at_key or is_new(old.text):
            yield Lost(old.value, is_at_key)


def _leave_out_values(parsed: ParsedYaml) -> bytes:
    """The plaintext of a file: what is left without the values that are encrypted."""
    values = (Replacement(value.scalar_start, value.end, b"") for value in parsed.nodes if value.is_tagged)
    return apply_replacements(parsed.data, values)


def _list_words(text: bytes) -> bytes:
    """The words of a text with a space between them, so that it is found with any line ends, margins and marks of
    comments."""
    return b" ".join(text.replace(b"#", b" ").split())


def _count(words: bytes, text: bytes) -> int:
    """How often a text has these words one after the other. No words are nowhere."""
    # The search for bytes is much faster than that for a pattern, and mostly finds none.
    return len(re.findall(rb"(?<!\w)%s(?!\w)" % re.escape(words), text)) if words and words in text else 0

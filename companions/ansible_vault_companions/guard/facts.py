"""What the hook knows of a content: its envelopes, its texts with their keys, and its faults."""

from __future__ import annotations

import os
import re
from typing import Iterator, NamedTuple

from ansible_vault_companions.envelopes.damage import (
    NOT_ENCRYPTED,
    find_damage,
    find_tagged,
    find_unencrypted,
    is_unmerged,
)
from ansible_vault_companions.envelopes.detection import may_have_envelope
from ansible_vault_companions.envelopes.header import MAGIC
from ansible_vault_companions.envelopes.node import ALIAS, JSON_KEY, NO_SCALAR, Node
from ansible_vault_companions.envelopes.parsed_text import ParsedText, ParsedYaml, parse_nodes
from ansible_vault_companions.git.contents import Content
from ansible_vault_companions.guard.list_items import Text
from ansible_vault_companions.limits import LONGEST_PLAINTEXT

TOO_LONG = f"it has over {LONGEST_PLAINTEXT:,} bytes"
# How a tag such as `!!null` begins.
STANDARD_TAGS = "tag:yaml.org,2002:"
# What may replace a secret: nothing, a locked account's password, or only Jinja expressions.
PLACEHOLDER = re.compile(
    rb"(?i:~|null|[!*])?|" rb"(?:\s|\{\{(?:'(?:[^'\\]|\\.)*'|\"(?:[^\"\\]|\\.)*\"|\{[^{}]*\}|[^{}'\"])+\}\})+",
    re.DOTALL,
)


class Encryption(NamedTuple):
    """What a search for envelopes tells."""

    is_vault: bool = False
    # Whether it has no text. Unless it may have an envelope, a comment counts as one.
    is_blank: bool = False
    # How many envelopes it has anywhere, and whether a value is encrypted.
    envelopes: int = 0
    has_value: bool = False
    # What is wrong with its envelopes; with what only has their tag; and if it has to be encrypted.
    damage: str = ""
    is_unmerged: bool = False
    tagged: str = ""
    unencrypted: str = NOT_ENCRYPTED

    @property
    def is_encrypted(self) -> bool:
        return self.is_vault or self.has_value


class Reading(NamedTuple):
    """What only reading tells."""

    # Whether it has nothing but comments and placeholders.
    is_empty: bool = False
    # Why it cannot be read as YAML.
    fault: str = ""
    texts: tuple[Text, ...] = ()


def may_be_encrypted(content: Content) -> bool:
    """Whether a content has to be read to tell what is encrypted. To read every content would take too long."""
    return may_have_envelope(content.data) or not content.data.strip()


def read_content(content: Content) -> tuple[Encryption, Reading]:
    data = content.data
    if content.is_cut:
        if data.startswith(MAGIC):
            return Encryption(is_vault=True, unencrypted=""), Reading()
        return Encryption(), Reading(fault=TOO_LONG)
    if not data.strip():
        return Encryption(is_blank=True, unencrypted=""), Reading(is_empty=True)
    if data.startswith(MAGIC):
        vault = ParsedText(data)
        damage = find_damage(vault)
        return Encryption(is_vault=True, damage=damage, is_unmerged=is_unmerged(vault), unencrypted=""), Reading()
    return _read_yaml(parse_nodes(data))


def _read_yaml(yaml: ParsedYaml) -> tuple[Encryption, Reading]:
    texts = (*_list_texts(yaml),)
    parsed = yaml.select_envelopes()
    is_empty = not parsed.fault and not any(text.is_encrypted or not is_placeholder(text.text) for text in texts)
    encryption = Encryption(
        is_blank=is_empty,
        envelopes=len(parsed.envelopes),
        has_value=any(text.is_encrypted for text in texts),
        damage=find_damage(parsed),
        is_unmerged=is_unmerged(parsed),
        tagged=find_tagged(parsed),
        unencrypted=find_unencrypted(parsed),
    )
    return encryption, Reading(is_empty, parsed.fault, texts)


def _list_texts(yaml: ParsedYaml) -> Iterator[Text]:
    anchors = {node.anchor for node in yaml.nodes if node.style != ALIAS}
    for node in yaml.nodes:
        if node.style == NO_SCALAR or node.style == ALIAS and node.anchor in anchors:
            continue
        path = node.path[:-1] if node.path[-1:] == (JSON_KEY,) else node.path
        yield Text(path, node.text.strip() or _read_name(node), node.is_envelope)


def _read_name(node: Node) -> bytes:
    """The tag and the anchor of what has no text: somebody may have typed a text that begins with `!`, `&` or `*`."""
    return os.fsencode(f"{'' if node.tag.startswith(STANDARD_TAGS) else node.tag}{node.anchor}")


def is_placeholder(text: bytes) -> bool:
    return PLACEHOLDER.fullmatch(text.strip()) is not None

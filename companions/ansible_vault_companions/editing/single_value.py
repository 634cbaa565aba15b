"""A single value of YAML that gets a new text from standard input. Everything else stays."""

from __future__ import annotations

import errno
import os
import re

from ansible_vault_companions.editing.encrypting_password import Choice
from ansible_vault_companions.envelopes import conflicts
from ansible_vault_companions.envelopes.header import MAGIC
from ansible_vault_companions.envelopes.key_paths import KeyPath, parse_path, quote_key
from ansible_vault_companions.envelopes.layout import Replacement, put_envelope
from ansible_vault_companions.envelopes.node import Node
from ansible_vault_companions.envelopes.parsed_text import (
    NO_SCALAR_THERE,
    VALUE_NOT_ENCRYPTED,
    ParsedYaml,
    parse_nodes,
    require_nodes,
)
from ansible_vault_companions.envelopes.pointers import refuse_pointer
from ansible_vault_companions.files import reading, replacing
from ansible_vault_companions.limits import LONGEST_PLAINTEXT
from ansible_vault_companions.quoting import escape
from ansible_vault_companions.refusals import Refused
from ansible_vault_companions.tool import Decrypt, Tool

A_VAULT = "what you gave is a vault, which ansible-vault does not encrypt again; decrypt it first"
INPUT_TOO_LONG = f"standard input has over {LONGEST_PLAINTEXT:,} bytes, more than a vault can hold; split it"
NOTHING_GIVEN = "standard input is empty"
HOW_TO_ENCRYPT = "; to encrypt it there, choose its password with --encrypt-vault-id"
NO_PLACE_IN_YAML = "there is no place for {} in this YAML; edit the file without --value"
# A key that YAML reads as this string without quotes.
SIMPLE_KEY = re.compile(r"(?!(?i:y|yes|n|no|on|off|true|false|null)\Z)[A-Za-z_][A-Za-z0-9_-]*")


def set_value(target: str, path: str, tool: Tool, decrypt: Decrypt, choice: Choice) -> None:
    """Sets the value at a path in a file to standard input. The text gets the value's own password, or a chosen one."""
    content = reading.read(target)
    is_chosen = choice.chosen is not None
    if content is None and not is_chosen:
        raise FileNotFoundError(errno.ENOENT, os.strerror(errno.ENOENT), target)
    # With the key of a new value.
    parsed = _parse(content or b"", path, is_chosen)
    value = parsed.find_value_at(path)
    _require_encryptable(value, path, is_chosen)
    # The old text, if the password that opens it is to encrypt the new one.
    before: bytes | None = None
    if is_chosen:
        credential = choice.choose_credential(escape(path), escape(path))
    else:
        decrypted = decrypt(value.require_readable())
        # If the password has another label than the value, the new text may be for other readers.
        credential, before = decrypted.require_credential(), decrypted.plaintext
    replacing.check_replaceable(target)
    text = _read_input()
    if text != before:
        replacing.replace(target, _put(parsed, value, path, tool.encrypt(text, credential)), content)


def _require_encryptable(value: Node, path: str, is_chosen: bool) -> None:
    """Refuses what is no scalar and, unless a password is chosen for it, what is in plaintext."""
    if not value.is_text:
        raise Refused(NO_SCALAR_THERE.format(escape(path)))
    if not (is_chosen or value.is_tagged and value.is_envelope):
        raise Refused(VALUE_NOT_ENCRYPTED.format(escape(path)) + HOW_TO_ENCRYPT)


def _put(parsed: ParsedYaml, value: Node, path: str, envelope: bytes) -> bytes:
    """The file with an envelope as this value."""
    changes = put_envelope(parsed.data, value, envelope)
    if not value.is_tagged:
        changes = _add_tag(changes, value)
    try:
        return parsed.rewrite(changes, {value: envelope}).data
    except Refused:
        raise Refused(NO_PLACE_IN_YAML.format(escape(path))) from None


def _parse(data: bytes, path: str, is_chosen: bool) -> ParsedYaml:
    """The nodes of a file. If the password is chosen, a single key that is missing is added at the end, with an empty
    value, unless that would change others."""
    refuse_pointer(data)
    if data.startswith(MAGIC):
        raise Refused("the whole file is a vault; edit it without --value")
    if conflicts.is_unmerged(data):
        raise Refused(f"it {conflicts.UNMERGED}")
    parsed = require_nodes(data)
    steps = parse_path(path)
    if not (is_chosen and len(steps) == 1 and isinstance(steps[0], str)) or parsed.list_values_at(path):
        return parsed
    after = parse_nodes(_add_key(data, steps[0]))
    if after.fault or _list_texts(after) != [*_list_texts(parsed), (steps, b"")]:
        raise Refused(NO_PLACE_IN_YAML.format(escape(path)))
    return after


def _list_texts(parsed: ParsedYaml) -> list[tuple[KeyPath, bytes]]:
    """All nodes, except the empty one of a file without any."""
    return [(node.path, node.text) for node in parsed.nodes if node.path or node.text]


def _add_key(data: bytes, key: str) -> bytes:
    """The file with a key at its end that has an empty value."""
    spelled = key if SIMPLE_KEY.fullmatch(key) else quote_key(key)
    end = b"\r\n" if b"\r\n" in data else b"\n"
    before = b"" if data.endswith(b"\n") or not data else end
    return data + before + b'%s: !vault ""%s' % (spelled.encode(errors="surrogateescape"), end)


def _add_tag(changes: list[Replacement], value: Node) -> list[Replacement]:
    """The changes with the tag before the value, which may be empty after its key."""
    first, *others = changes
    tag = b"!vault " if value.end > value.scalar_start else b" !vault "
    return [first._replace(text=tag + first.text), *others]


def _read_input() -> bytes:
    if os.isatty(0):
        raise Refused("--value reads standard input, which is a terminal; use a pipe or a file")
    text = reading.read_input(0)
    if len(text) > LONGEST_PLAINTEXT:
        raise Refused(INPUT_TOO_LONG)
    if not text:
        raise Refused(NOTHING_GIVEN)
    if text.startswith(MAGIC):
        raise Refused(A_VAULT)
    return text

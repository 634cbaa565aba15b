"""Shows a file with plaintext in place of its envelopes, or one of its values."""

from __future__ import annotations

from functools import partial

from ansible_vault_companions.envelopes import conflicts, detection
from ansible_vault_companions.envelopes.header import MAGIC
from ansible_vault_companions.envelopes.layout import Replacement, apply_replacements, put_plaintext
from ansible_vault_companions.envelopes.node import Node
from ansible_vault_companions.envelopes.parsed_text import (
    NO_SCALAR_THERE,
    VALUE_NOT_ENCRYPTED,
    ParsedText,
    parse_envelopes,
    require_nodes,
)
from ansible_vault_companions.envelopes.pointers import refuse_pointer
from ansible_vault_companions.output import write_error
from ansible_vault_companions.parallel import work_at_once
from ansible_vault_companions.quoting import escape
from ansible_vault_companions.refusals import Refused
from ansible_vault_companions.showing import first_line
from ansible_vault_companions.tool import Decrypt


def read_envelopes(target: str) -> ParsedText:
    """A file and its envelopes, of which there may be none."""
    return parse_envelopes(detection.read_envelope_file(target))


def show_envelopes(name: str, parsed: ParsedText, path: str, target: str, decrypt: Decrypt) -> list[bytes]:
    """The first line, and the file's data with plaintext in place of its envelopes, as far as they can be decrypted and
    shown. It is in pieces, since it may be long."""
    if conflicts.is_unmerged(parsed.data):
        # Most files have no conflict.
        from ansible_vault_companions.showing import conflict

        def show_side(data: bytes) -> list[bytes]:
            side = parse_envelopes(data)
            return [_choose_first_line(side), _show_values(name, side, path, decrypt)]

        shown = conflict.show_conflict(target, parsed.data, decrypt, show_side)
        if shown is not None:
            return shown
    return [_choose_first_line(parsed), _show_values(name, parsed, path, decrypt)]


def _choose_first_line(parsed: ParsedText) -> bytes:
    if parsed.is_vault:
        # One that can be decrypted is shown elsewhere.
        return first_line.AS_IT_IS
    count = sum(map(_is_encrypted, parsed.envelopes))
    return first_line.describe_values(count) if count else first_line.NOTHING


def _is_encrypted(value: Node) -> bool:
    """Whether the first line counts it. A comment may have the beginning of an envelope."""
    return not value.is_elsewhere or value.is_whole


def _show_values(name: str, parsed: ParsedText, path: str, decrypt: Decrypt) -> bytes:
    work = partial(_try_to_show, parsed.data, decrypt)
    results = work_at_once(work, parsed.envelopes, shows_progress=False)
    changes: list[Replacement] = []
    for result, value in zip(results, parsed.envelopes):
        if isinstance(result, Refused):
            write_error(f"{name}: {value.describe_place(path)}: shown as it is: {result}")
        else:
            changes += result
    return apply_replacements(parsed.data, changes)


def _try_to_show(data: bytes, decrypt: Decrypt, value: Node) -> list[Replacement] | Refused:
    """The changes that show a value, or why it stays encrypted."""
    try:
        return put_plaintext(data, value, decrypt(value.require_readable()).plaintext)
    except Refused as fault:
        return fault


def show_value(data: bytes, key_path: str, decrypt: Decrypt) -> bytes:
    """The plaintext of a value in YAML, or in the plaintext of a vault."""
    refuse_pointer(data)
    is_vault = data.startswith(MAGIC)
    # The names in a vault's plaintext are secret.
    text = decrypt(data).plaintext if is_vault else data
    value = require_nodes(text).find_value_at(key_path, names_others=not is_vault)
    if value.is_envelope:
        return decrypt(value.require_readable()).plaintext
    if not is_vault:
        raise Refused(VALUE_NOT_ENCRYPTED.format(escape(key_path)))
    if not value.is_text:
        raise Refused(NO_SCALAR_THERE.format(escape(key_path)))
    return value.text

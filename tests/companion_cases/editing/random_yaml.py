"""Random YAML: PyYAML composes the same values with the tag `!vault`, even after they are shown, changed and encrypted
again. Most envelopes are not decrypted: they contain the digits of their plaintexts."""

from __future__ import annotations

import binascii
import random
import re
from collections import Counter

import pytest
import yaml

from ansible_vault_companions.editing.encrypting_password import Choice
from ansible_vault_companions.editing.yaml_draft import YamlDraft, YamlText
from ansible_vault_companions.envelopes.header import LINE_END
from ansible_vault_companions.envelopes.key_paths import KeyPath
from ansible_vault_companions.envelopes.layout import Replacement, apply_replacements, find_column
from ansible_vault_companions.envelopes.parsed_text import require_nodes
from ansible_vault_companions.passwords.labels import Credential, Policy
from ansible_vault_companions.passwords.password import Password
from ansible_vault_companions.passwords.sources import make_path_source
from ansible_vault_companions.refusals import Refused
from ansible_vault_companions.tool import Decrypt, Decryption, Tool
from companion_cases.envelopes.found_and_replaced_envelopes import LOADERS, Generator, composed

SECRET = Password(make_path_source(""), b"", -1)
POLICY = Policy(requires_match=False, any_label=False, usual_label=None)
# Each way in which a text can begin and end.
PLAINTEXTS = ["", "x", "x\n", "x\n\n", "\n", "\n\n", " x", " x\ny", "\n x\n", "\tx", "x\n\ny", "x ", " ", "x\n  "]
PLAINTEXTS += ["# x", "x: 'y", "größe\n", "- a\n- b\n", "<<<<<<< x\n", "---\n", "\n\n x\n\n\n", "!vault |\n  x"]
PLAINTEXTS += ["a\r\nb", "\u2028\x7f\x01", "\"\\n'", "$ANSIBLE_VAULT"]


def envelope(plaintext: bytes) -> bytes:
    return b"$ANSIBLE_VAULT;1.1;AES256\n" + binascii.hexlify(plaintext) + b"\n"


def decrypt(text: bytes) -> Decryption:
    try:
        return Decryption(text, SECRET, binascii.unhexlify(b"".join(text.split()[1:])), POLICY)
    except ValueError:
        raise Refused("a comment below is part of its text") from None


class Hexadecimal(Tool):
    """Encrypts to the digits of the plaintext, and runs no program."""

    def __init__(self) -> None:
        pass

    def encrypt(self, plaintext: bytes, key: Credential) -> bytes:
        return envelope(plaintext)


def make_draft(data: bytes, opens: Decrypt = decrypt, choice: Choice = Choice([SECRET])) -> YamlDraft:
    side = YamlText(data, opens)
    return YamlDraft("", data, [side], side.shown.data, choice)


class Plaintexts(Generator):
    """Its envelopes contain the digits of plaintexts."""

    def lines(self) -> list[str]:
        return envelope(self.choice(PLAINTEXTS).encode()).decode().split()


# What may be typed for a value, with the indentation of its lines.
TYPED = ['"neu\\n"', "neu", "'n''eu'", "|-\n{0}neu\n{0}eu\n", "|+\n{0}neu\n\n\n", ">\n{0}neu\n{0}eu\n", "|2\n{0} neu\n"]
TYPED += ['"n\\x00\\u2028"', "|-\n{0}# !vault\n{0}x: !vault neu\n"]


def test_edits(monkeypatch: pytest.MonkeyPatch) -> None:
    """PyYAML, with libyaml and without, reads each shown value as its plaintext. If one of them is changed, in whatever
    style, it is read as its envelope, and every other value keeps every byte."""
    counts: Counter[str] = Counter()
    for number in range(700):
        monkeypatch.setattr(yaml, "CSafeLoader", LOADERS[number % 2], raising=False)
        data = Plaintexts(random.Random(number)).data()
        wanted = tagged(data)
        if wanted is None:
            continue
        if b"%TAG" in data:
            with pytest.raises(Refused, match="`%TAG` may make"):
                make_draft(data)
            continue
        file = make_draft(data)
        plain = [(path, shown_text(text)) for path, text in wanted]
        assert tagged(file.plaintext) == plain, data
        counts.update(values=len(wanted), shown=len(file.opened), **Counter(repr(text) for _, text in plain))
        assert file.encrypt(Hexadecimal(), file.plaintext).content == data, data
        counts["changed"] += check_changed(file, random.Random(number))
    assert min(counts["values"], counts["shown"], counts["changed"]) > 300, counts
    assert min(counts[repr(text)] for text in PLAINTEXTS if not text.startswith("$")) > 10, counts


def tagged(data: bytes) -> list[tuple[KeyPath, str]] | None:
    """Return the path and the text of each value with the tag; None if it is not YAML."""
    values = composed(data)
    return None if values is None else [(value.path, value.text) for value in values if value.is_tagged]


def shown_text(envelope: str) -> str:
    """Return the plaintext of an envelope if an edit can show it, since it is not folded."""
    try:
        text = decrypt(envelope.encode()).plaintext.decode()
    except Refused:
        return envelope
    return envelope if text.startswith("$ANSIBLE_VAULT") or re.search(" [0-9a-f]{16}", envelope) else text


def check_changed(file: YamlDraft, generator: random.Random) -> bool:
    """Change a value of the shown text. Return whether there is one that PyYAML can still read."""
    text = file.plaintext
    shown = [value for value in require_nodes(text).nodes if value.is_tagged and not value.is_envelope]
    if not shown:
        return False
    value, typed = generator.choice(shown), generator.choice(TYPED)
    lines = typed.format(" " * (find_column(text, value.scalar_start) + 2)).removesuffix("\n").encode()
    ending = LINE_END.search(text)
    edited = apply_replacements(
        text, [Replacement(value.scalar_start, value.end, lines.replace(b"\n", ending[0] if ending else b"\n"))]
    )
    read = tagged(edited)
    if read is None:
        return False
    try:
        after = file.encrypt(Hexadecimal(), edited).content
    except Refused as fault:
        is_cut = len(edited[edited.rfind(b"!", 0, value.scalar_start) : value.scalar_start].split()) > 1
        assert is_cut or is_followed(edited, value.scalar_start + len(lines)), (fault, edited)
        assert typed == "neu" and "only a part of the text" in str(fault), (fault, edited)
        return True
    check_after(file, edited, after, read)
    return True


def is_followed(data: bytes, place: int) -> bool:
    """Return whether more than the ends of collections follows in the line."""
    rest = re.compile(rb"[^\r\n]*").match(data, place)
    return rest is not None and rest[0].strip(b" ,]}") != b""


def check_after(file: YamlDraft, edited: bytes, after: bytes, read: list[tuple[KeyPath, str]]) -> None:
    """Check that an edited text is read as before, with envelopes, and that at most one scalar has changed."""
    envelopes = [text if text.startswith("$ANSIBLE") else envelope(text.encode()).decode() for _, text in read]
    wanted = [(path, text.split()) for (path, _), text in zip(read, envelopes)]
    assert [(path, text.split()) for path, text in tagged(after) or []] == wanted, (edited, after)
    scalars_before = Counter(old.scalar for old in file.opened)
    lost = scalars_before - Counter(after[node.scalar_start : node.end] for node in require_nodes(after).nodes)
    assert sum(lost.values()) <= 1, (edited, after)

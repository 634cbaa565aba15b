"""A text that an edit moves keeps its password, whatever key or item it moves to. If it is unclear which password a
value gets, the edit is refused. In the first test, envelopes contain the digits of their plaintexts."""

from __future__ import annotations

import re
from collections import Counter
from typing import NamedTuple

import hypothesis
import pytest
from hypothesis import strategies as st

from ansible_vault_companions.editing.encrypting_password import Choice
from ansible_vault_companions.passwords.labels import Credential
from ansible_vault_companions.passwords.password import Password
from ansible_vault_companions.passwords.sources import parse_vault_id
from ansible_vault_companions.refusals import Refused
from ansible_vault_companions.tool import Decryption
from companion_cases import EDIT, Done, Place, block, check_answer, edit, ended, sealed, silent, texts
from companion_cases.editing.random_yaml import POLICY, Hexadecimal, envelope, make_draft

EXAMPLES = 700
UNCLEAR = "may be new, changed or moved, and the password depends on which; save one change at a time"
PASSWORDS = {label: Password(parse_vault_id(f"{label}@file"), label.encode(), -1) for label in ("dev", "prod", "test")}
SEALED = re.compile(r"\$ANSIBLE_VAULT;1\.2;AES256;(\w+)\s+([0-9a-f]+)")
# Few keys and texts, so that many texts move to the key of another value.
KEYS, TEXTS = "abcd", "stuv"


class Value(NamedTuple):
    """A value before the edit: the label of its password, and its text."""

    label: str
    text: str


class Labeled(Hexadecimal):
    def encrypt(self, plaintext: bytes, key: Credential) -> bytes:
        return seal(Value(key.label, plaintext.decode()))


def seal(value: Value) -> bytes:
    return envelope(value.text.encode()).replace(b"1.1;AES256", b"1.2;AES256;%s" % value.label.encode())


def unseal(text: bytes) -> Decryption:
    [(label, digits)] = SEALED.findall(text.decode())
    return Decryption(text, PASSWORDS[label], bytes.fromhex(digits), POLICY)


def write_yaml(values: dict[str, str], items: list[str]) -> bytes:
    lines = [f"{key}: !vault {value}" for key, value in values.items()]
    return "\n".join([*lines, "items:", *(f"- !vault {item}" for item in items), ""]).encode()


def write_sealed(value: Value) -> str:
    return "|\n    " + "\n    ".join(seal(value).decode().split())


def list_values(data: bytes) -> list[Value]:
    return [Value(label, bytes.fromhex(digits).decode()) for label, digits in SEALED.findall(data.decode())]


VALUES, TYPED = st.builds(Value, st.sampled_from([*PASSWORDS]), st.sampled_from(TEXTS)), st.sampled_from(TEXTS + "wx")


def test_passwords_stay(request: pytest.FixtureRequest) -> None:
    """Of an edit that is not refused: no text loses a password and gets another one, and a new text gets the password
    of its key."""
    counts: Counter[str] = Counter()

    @hypothesis.seed(request.config.getoption("--seed"))
    @hypothesis.settings(max_examples=EXAMPLES, deadline=None, database=None)
    @hypothesis.given(
        values=st.dictionaries(st.sampled_from(KEYS), VALUES, min_size=1),
        items=st.lists(VALUES, max_size=3),
        typed_values=st.dictionaries(st.sampled_from(KEYS), TYPED),
        typed_items=st.lists(TYPED, max_size=3),
        label_of_new=st.sampled_from([*PASSWORDS]),
    )
    @hypothesis.example({"a": Value("prod", "s"), "b": Value("dev", "t")}, [], {"a": "t", "b": "s"}, [], "dev")
    def check(
        values: dict[str, Value],
        items: list[Value],
        typed_values: dict[str, str],
        typed_items: list[str],
        label_of_new: str,
    ) -> None:
        sealed = {key: write_sealed(value) for key, value in values.items()}
        data = write_yaml(sealed, [write_sealed(item) for item in items])
        file = make_draft(data, unseal, Choice([*PASSWORDS.values()], label_of_new))
        try:
            after = file.encrypt(Labeled(), write_yaml(typed_values, typed_items)).content
        except Refused as fault:
            assert UNCLEAR in str(fault)
            counts["refused"] += 1
            return
        old, new = (Counter(list_values(each)) for each in (data, after))
        assert [value.text for value in list_values(after)] == [*typed_values.values(), *typed_items]
        lost, added = ({value.text for value in each} for each in (old - new, new - old))
        assert not lost & added, "these texts have another password than before"
        counts["encrypted"] += 1
        texts = {value.text for value in old}
        for key, value in zip(typed_values, list_values(after)):
            if key in values and value.text not in texts:
                assert value.label == values[key].label, "a new text gets the password of its key"
                counts["new"] += 1
            counts["moved"] += key in values and values[key].text != value.text in texts

    check()
    assert min(counts["encrypted"], counts["refused"], counts["moved"], counts["new"]) > 50, counts


# What is done to values at keys that begin with k.
MOVES = {
    "below another key": "sed -i -e '1i app:' -e 's/^/  /' \"$1\"",
    "under other names": "sed -i 's/^k/name/' \"$1\"",
    "into a list": "sed -i -e '1i items:' -e 's/^k.: /- /' \"$1\"",
}
LABELS_OF_MOVED = ["prod", "dev prod", "prod prod", "prod dev prod", "prod prod prod"]


@pytest.mark.parametrize("move", MOVES)
@pytest.mark.parametrize("labels", LABELS_OF_MOVED)
@pytest.mark.parametrize("chosen", ["", "dev", "prod"])
def test_moved_values(place: Place, move: str, labels: str, chosen: str) -> None:
    """Values with one text that move together keep their envelopes, whatever label is chosen for new ones. If they have
    several labels, it is unclear which value is which, and the edit is refused."""
    envelopes = [sealed(label, b"same", label) for label in labels.split()]
    values = [block(label, b"same", label, f"k{number}") for number, label in enumerate(labels.split(), 1)]
    place.put("vars.yml", b"".join(values))
    words = [*place.by_id("dev", "dev"), *place.by_id("prod", "prod"), "vars.yml"]
    done = edit(place, MOVES[move], *words, ANSIBLE_VAULT_ENCRYPT_IDENTITY=chosen)
    if len({*labels.split()}) > 1:
        ended("it is unclear", done, 1, UNCLEAR)
        assert place.get("vars.yml") == b"".join(values), "the file stays"
        return
    silent("it is clear", done)
    after = re.sub(rb"^ +", b"", place.get("vars.yml"), flags=re.MULTILINE)
    assert not after.startswith(values[0][:4]), "they have moved"
    assert after.count(envelopes[0]) == len(envelopes), "each keeps its envelope"


class Item(NamedTuple):
    """An item of a list: the name of its password, and its text."""

    password: str
    text: str


class ListEdit(NamedTuple):
    """A list, the texts that stand there afterwards, the labels of these items, and the label that is chosen for new
    values, if one is. Without labels, it is unclear which secret an item gets."""

    items: list[Item]
    typed: list[str]
    labels: list[str]
    label_of_new: str = ""


REFUSED: list[str] = []
THREE = [Item("dev", "one"), Item("prod", "two"), Item("dev", "three")]
SAME = [Item("dev", "same"), Item("prod", "same")]
LISTS = {
    "one before a changed one": ListEdit(THREE, ["neu", "eins", "two", "three"], REFUSED, label_of_new="prod"),
    "one behind, and the first one removed": ListEdit(THREE, ["two", "three", "new"], REFUSED),
    "one removed, and the last one changed": ListEdit(THREE, ["one", "three!"], REFUSED),
    "two changed in their places": ListEdit(THREE, ["one!", "two!", "three"], ["dev", "prod", "dev"]),
    "another order": ListEdit(THREE, ["three", "two", "one"], ["dev", "prod", "dev"]),
    "one between": ListEdit(THREE, ["one", "two", "new", "three"], ["dev", "prod", "prod", "dev"], label_of_new="prod"),
    "one before the only one, which is changed": ListEdit(
        [Item("dev", "one")], ["neu", "eins"], REFUSED, label_of_new="prod"
    ),
    "one removed, and the other one changed": ListEdit([Item("prod", "one"), Item("prod2", "two")], ["two!"], REFUSED),
    "one of two with the same text, changed": ListEdit(SAME, ["changed", "same"], ["dev", "prod"]),
    "two before two with the same text": ListEdit(SAME, ["x", "y", "same", "same"], REFUSED, label_of_new="dev"),
}


def label_of(password: str) -> str:
    """Two passwords have the label prod."""
    return password.rstrip("2")


def edit_list(place: Place, row: ListEdit) -> Done:
    # Of two passwords with a label, neither is for new values.
    passwords = ["dev", "prod"] if row.label_of_new else ["dev", "prod", "prod2"]
    words = [word for name in passwords for word in place.by_id(label_of(name), name)]
    if row.label_of_new:
        words.append(f"--encrypt-vault-id={row.label_of_new}")
    lines = "".join(f"- !vault {text}\\n" for text in row.typed)
    return edit(place, f"printf 'l:\\n{lines}' > \"$1\"", *words, "vars.yml")


@pytest.mark.parametrize("row", LISTS.values(), ids=LISTS)
def test_lists(place: Place, row: ListEdit) -> None:
    """Texts and places identify items of a list. If they do not tell which secret an item gets, it is refused."""
    blocks = [block(item.password, item.text.encode(), label_of(item.password), "") for item in row.items]
    before = b"l:\n- " + b"- ".join(blocks)
    place.put("vars.yml", before)
    done = edit_list(place, row)
    if row.labels == REFUSED:
        old = [item.text for item in row.items]
        first = next(number for number, text in enumerate(row.typed, 2) if text not in old)
        ended("it is unclear", done, 1, f"line {first}: this value {UNCLEAR}")
        assert place.get("vars.yml") == before, "the file stays"
        return
    changed = [number for number, text in enumerate(row.typed) if Item(row.labels[number], text) not in row.items]
    notes = [f"{EDIT}: vars.yml: encrypted l[{number}] (label {row.labels[number]})\n" for number in changed]
    check_answer("it is clear", done, errors="".join(notes))
    after = place.get("vars.yml")
    assert re.findall(r"AES256;(\w+)", after.decode()) == row.labels, "the labels"
    for label, text, piece in zip(row.labels, row.typed, after.split(b"- !vault |")[1:]):
        assert texts(piece, label) == [text.encode()], f"the secret of {text} is that of its label"
        is_kept = piece.strip() in block(label, text.encode(), label, "")
        assert is_kept == (Item(label, text) in row.items), f"only an unchanged {text} keeps its envelope"


# The names of items and their texts, of which the first one has the password dev, and the second one prod. Then those
# that stand there afterwards, and their labels.
USERS = [("web", "one"), ("db", "two")]
NAMED = {
    "both values changed": ([("web", "one!"), ("db", "two!")], ["dev", "prod"]),
    "a name changed": ([("api", "one"), ("db", "two")], ["dev", "prod"]),
    "another order": ([("db", "two"), ("web", "one")], ["prod", "dev"]),
    "another item in the place of one": ([("api", "new"), ("db", "two")], REFUSED),
    "one removed, the other one changed, and one added": ([("db", "two!"), ("api", "new")], REFUSED),
    "another order, and both changed": ([("db", "two!"), ("web", "one!")], REFUSED),
}


@pytest.mark.parametrize("typed, labels", NAMED.values(), ids=NAMED)
def test_lists_with_names(place: Place, typed: list[tuple[str, str]], labels: list[str]) -> None:
    """The place of an item identifies it only if the rest of the items is as before. What changes elsewhere does not
    count."""
    passwords = dict(zip(dict(USERS), ["dev", "prod"]))
    items = [
        b"- name: %s\n  " % name.encode() + block(passwords[name], text.encode(), passwords[name], "pw")
        for name, text in USERS
    ]
    before = b"port: 1\nusers:\n" + b"".join(items)
    place.put("vars.yml", before)
    lines = "".join(f"- name: {name}\\n  pw: !vault {text}\\n" for name, text in typed)
    words = [*place.by_id("dev", "dev"), *place.by_id("prod", "prod"), "--encrypt-vault-id=prod", "vars.yml"]
    done = edit(place, f"printf 'port: 2\\nusers:\\n{lines}' > \"$1\"", *words)
    if labels == REFUSED:
        ended("it is unclear", done, 1, UNCLEAR)
        assert place.get("vars.yml") == before, "the file stays"
        return
    assert done.returncode == 0, done
    pieces = place.get("vars.yml").split(b"- name: ")[1:]
    assert [texts(piece.partition(b"!vault |")[2], label) for piece, label in zip(pieces, labels)] == [
        [text.encode()] for _, text in typed
    ], "each text has the password of its item"

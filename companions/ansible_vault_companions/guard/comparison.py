"""How many encrypted values and plaintexts a file has at each place, before a commit and after it.

    before  users: [{name: eva, pw: E1}, {name: ann, pw: x}]
    now     users: [{name: eva, pw: abc}, {name: ann, pw: "{{ y }}"}]

The first one has one encrypted value at ("users", "eva", "pw"), and one plaintext at ("users", "ann", "pw"). The other
one has a plaintext in place of the value, and nothing in place of the plaintext: an expression may stand for a secret.
Both also have a plaintext at ("users", "eva", "name"), and at ("users", "ann", "name").
"""

from __future__ import annotations

from collections import Counter
from typing import Iterable, NamedTuple

from ansible_vault_companions.guard.facts import Reading, is_placeholder
from ansible_vault_companions.guard.list_items import Lists, Place, Text, name_items


class Counts(NamedTuple):
    encrypted: Counter[Place]
    plain: Counter[Place]


def compare_texts(before: Reading, now: Reading) -> tuple[Counts, Counts]:
    lists_before, lists_now = name_items(before.texts, now.texts)
    return _count_texts(before.texts, lists_before), _count_texts(now.texts, lists_now)


def _count_texts(texts: Iterable[Text], lists: Lists) -> Counts:
    counts = Counts(Counter(), Counter())
    for text in texts:
        if text.is_encrypted:
            counts.encrypted[lists.find_place(text.path)] += 1
        elif not is_placeholder(text.text):
            counts.plain[lists.find_place(text.path)] += 1
    return counts


def find_variable(place: Place) -> Place:
    """The place of a variable, or of what is in it, without the play, the task or the inventory around it."""
    for start in range(len(place), 0, -1):
        if place[start - 1] == "vars" or "hosts" in place[start - 2 : start - 1]:
            return place[start:]
    return place

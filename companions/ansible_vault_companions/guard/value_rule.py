"""A value that was encrypted is not in plaintext at its key: in its file, or in any file if it is gone from all."""

from __future__ import annotations

from collections import Counter
from typing import Iterator

from ansible_vault_companions.git.changes import File
from ansible_vault_companions.guard.comparison import Counts, compare_texts, find_variable
from ansible_vault_companions.guard.evidence import Evidence, Finding, may_have_variables
from ansible_vault_companions.guard.list_items import UNKNOWN_ITEM, NameText, Place
from ansible_vault_companions.quoting import escape

NOW_PLAIN = "has {} in plaintext, which {} encrypted in {}"
FEWER = "has fewer envelopes than in {}, and its values cannot be compared: {}"
REMEDY = "encrypt the value, for example with ansible-vault-edit"
REPAIR = "encrypt and repair it"


def check_file(evidence: Evidence, file: File) -> Finding | None:
    known = evidence.known
    before, now = known.search(file.before), known.search(file.blob)
    if now.is_vault or evidence.is_example(file):
        return None
    if before.envelopes > now.envelopes and not known.read(file.blob).is_empty:
        fault = known.read(file.before).fault or known.read(file.blob).fault
        if fault:
            return Finding(FEWER.format(evidence.since, fault), REPAIR)
    if not before.has_value and not (evidence.removed_values and may_have_variables(file.name)):
        return None
    counts = compare_texts(known.read(file.before), known.read(file.blob))
    doubled = _find_doubled_values(*counts)
    replaced = _find_replaced_values(*counts, doubled)
    places = {*doubled, *replaced, *_find_elsewhere(evidence.removed_values, *counts)}
    if not places:
        return None
    listed = ", ".join(sorted(escape(_write_place(place)) for place in places))
    return Finding(NOW_PLAIN.format(listed, "was" if len(places) == 1 else "were", evidence.since), REMEDY)


def _find_doubled_values(before: Counts, now: Counts) -> set[Place]:
    """The places of values with more plaintexts, even if there are as many values:

        before  {pw: E1}             a value at ("pw",)
        now     {pw: E1, pw: abc}    a value and a text at ("pw",): E1 may be decrypted there

    Only this finds a key that is there twice, in one mapping or in two documents of a file. Where an item is not known,
    the text may be in another one.
    """
    more = now.plain - before.plain
    return {place for place in before.encrypted if place in more and UNKNOWN_ITEM not in place}


def _find_replaced_values(before: Counts, now: Counts, found: set[Place]) -> Iterator[Place]:
    """The other places of which there are fewer values, and more plaintexts, at, above or below them. A list item that
    is not known may be at any place:

        before  tokens: [E1, x]        a value at ("tokens", 0), and a text at ("tokens", 1)
        now     tokens: [abc, y, z]    three texts at ("tokens", UNKNOWN_ITEM): E1 is decrypted
        now     tokens: [E2, y, z]     two texts and a value there: E2 may be at ("tokens", 0), so none is decrypted
    """
    fewer, more = before.encrypted - now.encrypted, now.plain - before.plain
    for place in fewer.keys() - found:
        # To count takes long, and most places have no new text near them.
        if any(_may_be_same(place, other) for other in more):
            is_less_encrypted = _count_at(place, before.encrypted) > _count_at(place, now.encrypted)
            if is_less_encrypted and _count_at(place, before.plain) < _count_at(place, now.plain):
                yield place


def _count_at(place: Place, counts: Counter[Place]) -> int:
    """How many texts are at, above or below a place."""
    return sum(count for other, count in counts.items() if _may_be_same(place, other))


def _find_elsewhere(removed: Counter[Place], before: Counts, now: Counts) -> Iterator[Place]:
    """The places of values that are gone from all files, with more plaintexts at or below them here. Files have nothing
    in common but names, so a place needs one."""
    variables = (find_variable(place) for place in now.plain - before.plain)
    more = {variable[:end] for variable in variables for end in range(1, len(variable) + 1)}
    return (place for place in removed if place in more and any(isinstance(step, str) for step in place))


def _may_be_same(place: Place, other: Place) -> bool:
    """Whether two places are the same, or one is in the other."""
    steps = zip(place, other)
    return all(a == b or a is UNKNOWN_ITEM or b is UNKNOWN_ITEM for a, b in steps)


def _write_place(place: Place) -> str:
    """A place as users type it: `users[].password`."""
    steps = (step if isinstance(step, str) and not isinstance(step, NameText) else "[]" for step in place)
    return ".".join(steps).replace(".[]", "[]") or "."

"""Matches the values of a saved text with those that the file had, and so decides which password each one gets.

A value keeps its envelope if its text is at the same keys as before, or has moved. A new text at the keys of a value
gets that value's password; in a list, only if its items are the same, apart from their values. Anything else is new. If
that leaves several passwords to choose from, it is refused.
"""

from __future__ import annotations

from collections import defaultdict
from typing import Callable, Iterable, NamedTuple, TypeVar

from ansible_vault_companions.editing.encrypting_password import Choice
from ansible_vault_companions.envelopes.key_paths import ANY_ITEM, KeyPath
from ansible_vault_companions.envelopes.node import Node
from ansible_vault_companions.envelopes.parsed_text import ParsedYaml
from ansible_vault_companions.passwords.labels import Credential
from ansible_vault_companions.quoting import escape
from ansible_vault_companions.tool import Decryption

Item = TypeVar("Item")


class DecryptedValue(NamedTuple):
    """A value of the file, its plaintext, and its scalar as the file has it, with the column of its key."""

    value: Node
    decrypted: Decryption
    scalar: bytes
    column: int

    @property
    def text(self) -> bytes:
        return self.decrypted.plaintext

    def require_credential(self) -> Credential:
        """The credential for another text in its place. Refuses one that may not encrypt that."""
        return self.decrypted.require_credential(f"{describe_place(self.value)}: ")


class Match(NamedTuple):
    """The value whose envelope a typed one keeps, or else the credential that encrypts it."""

    kept: DecryptedValue | None
    credential: Credential | None = None


def describe_name(value: Node) -> str:
    return escape(value.name) if value.name else "this value"


def describe_place(value: Node) -> str:
    """Where a value is, for a message."""
    return f"line {value.line}: {describe_name(value)}"


def find_matches(
    opened: list[DecryptedValue], typed: list[Node], choice: Choice, changed_lists: set[KeyPath]
) -> list[Match]:
    """What each typed value was before, or its credential, in order."""
    kept = _keep({}, opened, typed, lambda value: value.path)
    # An item of a list may be at the place of another. So what has left its list was replaced, if its place was taken.
    kept = _keep(kept, opened, typed, lambda value: _list_of(value.path))
    replaced = _list_gone(opened, kept)
    kept = _keep(kept, opened, typed, lambda _: ())
    texts_gone = {old.text for old in _list_gone(opened, kept)}
    unknown = [value for number, value in enumerate(typed) if number not in kept]
    replacements = _Replacements(opened, replaced, unknown, changed_lists)
    matches = []
    for number, value in enumerate(typed):
        if number in kept:
            matches.append(Match(kept[number]))
            continue
        names = describe_name(value), describe_place(value)
        # A text that is gone may have moved here. It was not kept, so those that had it have several passwords.
        if replacements.are_unclear(value, choice) or value.text in texts_gone:
            credential = choice.settle_credential(*names)
        else:
            credential = replacements.find_credential(value) or choice.choose_credential(*names)
        matches.append(Match(None, credential))
    return matches


def find_changed_lists(shown: list[ParsedYaml], saved: ParsedYaml) -> set[KeyPath]:
    """The paths of lists whose items are not as in one of the shown texts, apart from their values."""
    before, after = [_group_items(each) for each in shown], _group_items(saved)
    paths = {path for items in (*before, after) for path in items}
    return {path for path in paths if all(items[path] != after[path] for items in before)}


def _group_items(parsed: ParsedYaml) -> dict[KeyPath, set[tuple[KeyPath, bytes]]]:
    """The plaintexts within each list, with their paths."""
    plaintexts = [node for node in parsed.nodes if not node.is_tagged]
    return _group((_outermost_list(_list_of(node.path)), (node.path, node.text)) for node in plaintexts)


def _outermost_list(group: KeyPath) -> KeyPath:
    """The path of the list that a value is in, whatever lists are within that; its own path if it is in none."""
    return group[: group.index(ANY_ITEM)] if ANY_ITEM in group else group


def _keep(
    kept: dict[int, DecryptedValue],
    opened: list[DecryptedValue],
    typed: list[Node],
    group: Callable[[Node], KeyPath],
) -> dict[int, DecryptedValue]:
    """What the typed values keep, by their numbers, with more: they have the text of one that is gone from the same
    group. If they have moved, all that have it there must have the same credential."""
    sources: dict[tuple[KeyPath, bytes], list[DecryptedValue]] = defaultdict(list)
    for old in _list_gone(opened, kept):
        sources[group(old.value), old.text].append(old)
    more = {}
    for number, value in enumerate(typed):
        same = sources[group(value), value.text]
        if number in kept or not same:
            continue
        if same[0].value.path == value.path or len({old.require_credential() for old in same}) == 1:
            more[number] = same.pop(0)
    return {**kept, **more}


def _list_gone(opened: list[DecryptedValue], kept: dict[int, DecryptedValue]) -> list[DecryptedValue]:
    """The values that no typed one keeps so far."""
    still_there = {*kept.values()}
    return [old for old in opened if old not in still_there]


class _Replacements:
    """The values that are gone from their places, and those that are unknown there, all together: there may be many."""

    def __init__(
        self,
        opened: list[DecryptedValue],
        replaced: list[DecryptedValue],
        unknown: list[Node],
        changed_lists: set[KeyPath],
    ) -> None:
        # The credentials of what was replaced at each path, and the passwords of all values of each list.
        self.at_path = _group((old.value.path, old.require_credential()) for old in replaced)
        self.in_list = _group((_list_of(old.value.path), old.decrypted.password.content) for old in opened)
        # The paths of both in each list, and the lists in which these or other parts of items differ.
        self.before = _group((_list_of(old.value.path), old.value.path) for old in replaced)
        self.after = _group((_list_of(value.path), value.path) for value in unknown)
        self.changed = {
            group
            for group in self.before
            if self.before[group] != self.after[group] or _outermost_list(group) in changed_lists
        }

    def are_unclear(self, value: Node, choice: Choice) -> bool:
        """Whether a new text may get one of several passwords or labels. If its list has changed, it may replace any
        item; if there are more than before, it may also be new."""
        group = _list_of(value.path)
        if group in self.changed:
            is_longer = len(self.after[group]) > len(self.before[group])
            new = choice.list_new_passwords() if is_longer else []
            if len({*self.in_list[group], *(password.content for password in new)}) > 1:
                return True
        return len(self.at_path[value.path]) > 1

    def find_credential(self, value: Node) -> Credential | None:
        """The credential of what a new text replaces; None if it replaces nothing."""
        return next(iter(self.at_path[value.path]), None)


def _group(pairs: Iterable[tuple[KeyPath, Item]]) -> dict[KeyPath, set[Item]]:
    groups: dict[KeyPath, set[Item]] = defaultdict(set)
    for group, item in pairs:
        groups[group].add(item)
    return groups


def _list_of(path: KeyPath) -> KeyPath:
    """The path without the numbers of items."""
    return tuple(ANY_ITEM if isinstance(step, int) else step for step in path)

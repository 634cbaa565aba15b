"""Which item of a list is which, before a commit and after it.

An item is known by the text of the first key that tells all items of its list apart, `name` before others, unless a
value has this key. Without one, it is known by the number that it had before: an item that has not changed keeps it,
whatever the order, and if as many are left as there were, so do these. With the values E1 to E3:

    before  users: [{name: eva, pw: E1}, {name: ann, pw: x}]    tokens: [E2, x]
    now     users: [{name: ann, pw: y}, {name: eva, pw: E3}]    tokens: [y, E2, x]

E1 is at ("users", "eva", "pw"), where E3 is now. E2 stays at ("tokens", 0), and the text x at ("tokens", 1), but the
new text y is at ("tokens", UNKNOWN_ITEM).
"""

from __future__ import annotations

from collections import defaultdict
from typing import Iterable, Mapping, NamedTuple, Sequence, Union

from ansible_vault_companions.envelopes.key_paths import KeyPath


class NameText(str):
    """The text that a list item is known by. It is equal to the same key of a mapping, but no message shows it."""


# What a list item is known by: a text, or the number that it had before.
ItemName = Union[NameText, int]
# The keys and the items that lead to a text. Where an item is not known, it may be any item, or key.
UNKNOWN_ITEM = None
Place = tuple[Union[str, ItemName, None], ...]
# What all items of a list may have: a key or, if they are lists themselves, an item with this number.
Step = Union[str, int]
NAME = "name"


class Text(NamedTuple):
    """A scalar, as the parser reads it."""

    path: KeyPath
    text: bytes
    is_encrypted: bool


# The texts of each item by its number, with their paths below the item; and the names of items by their numbers.
Items = Mapping[int, tuple[Text, ...]]
Names = Mapping[int, ItemName]


class ItemList(NamedTuple):
    path: KeyPath = ()
    items: Items = {}


class Lists:
    """All lists of a file, before a commit or after it, and the names of their items by the paths of these."""

    def __init__(self, texts: Iterable[Text]) -> None:
        self.all = _find_lists(texts)
        self.names: dict[KeyPath, ItemName] = {}

    def find_place(self, path: KeyPath) -> Place:
        steps = enumerate(path, 1)
        return tuple(self.names.get(path[:end], UNKNOWN_ITEM) if isinstance(step, int) else step for end, step in steps)

    def find_by_place(self, depth: int) -> dict[Place, ItemList]:
        """The lists with paths of this length."""
        return {self.find_place(each.path): each for each in self.all if len(each.path) == depth}

    def add_names(self, path: KeyPath, names: Names) -> None:
        """Names the items of the list with this path."""
        self.names.update({(*path, number): name for number, name in names.items()})


def name_items(before: Sequence[Text], now: Sequence[Text]) -> tuple[Lists, Lists]:
    """The lists before and now, whose items have the same names if they are the same."""
    secret_steps = {text.path[-1] for text in (*before, *now) if text.is_encrypted and text.path}
    lists_before, lists_now = Lists(before), Lists(now)
    # The place of a list depends on the names of the items that it is in.
    for depth in sorted({len(each.path) for each in (*lists_before.all, *lists_now.all)}):
        for list_before, list_now in _pair_lists(lists_before, lists_now, depth):
            names_before, names_now = _name_pair(list_before.items, list_now.items, secret_steps)
            lists_before.add_names(list_before.path, names_before)
            lists_now.add_names(list_now.path, names_now)
    return lists_before, lists_now


def _find_lists(texts: Iterable[Text]) -> list[ItemList]:
    lists: dict[KeyPath, dict[int, list[Text]]] = defaultdict(lambda: defaultdict(list))
    for text in texts:
        for depth, step in enumerate(text.path):
            if isinstance(step, int):
                lists[text.path[:depth]][step].append(text._replace(path=text.path[depth + 1 :]))
    return [ItemList(path, {number: (*item,) for number, item in items.items()}) for path, items in lists.items()]


def _pair_lists(before: Lists, now: Lists, depth: int) -> list[tuple[ItemList, ItemList]]:
    """The lists with paths of this length, those at the same place together. One without another has an empty one."""
    at_before, at_now = before.find_by_place(depth), now.find_by_place(depth)
    return [(at_before.get(place, ItemList()), at_now.get(place, ItemList())) for place in {**at_before, **at_now}]


def _name_pair(before: Items, now: Items, secret_steps: set[Step]) -> tuple[Names, Names]:
    """The names of the items of a list; none if there is no list before or now, and no step tells the items apart."""
    by_step_before, by_step_now = _name_by_steps(before, secret_steps), _name_by_steps(now, secret_steps)
    for step in (*by_step_before, *by_step_now):
        if (step in by_step_before or not before) and (step in by_step_now or not now):
            return by_step_before.get(step, {}), by_step_now.get(step, {})
    return ({number: number for number in before}, _match_numbers(before, now)) if before and now else ({}, {})


def _name_by_steps(items: Items, secret_steps: set[Step]) -> Mapping[Step, Names]:
    """The names of the items by each step that tells them apart."""
    by_step: dict[Step, dict[int, ItemName]] = {NAME: {}}
    for number, texts in items.items():
        for text in texts:
            if len(text.path) == 1 and not text.is_encrypted:
                by_step.setdefault(text.path[0], {})[number] = NameText(text.text.decode(errors="replace"))
    return {
        step: names
        for step, names in by_step.items()
        if step not in secret_steps and len({*names.values()}) == len(items)
    }


def _match_numbers(before: Items, now: Items) -> Names:
    """The number that each item had before, as far as it is known."""
    numbers = {texts: number for number, texts in before.items()}
    unchanged: dict[int, ItemName] = {number: numbers[texts] for number, texts in now.items() if texts in numbers}
    kept = {*unchanged.values()}
    gone = [number for number in before if number not in kept]
    new = [number for number in now if number not in unchanged]
    return {**unchanged, **dict(zip(new, gone))} if len(gone) == len(new) else unchanged

"""Typed paths: each names the nodes that have its steps. They are found without writing the path of any node."""

from __future__ import annotations

import json
import re
from typing import Union

import pytest
from hypothesis import given, settings
from hypothesis import strategies as st

from ansible_vault_companions.envelopes.key_paths import ANY_ITEM, KeyPath, parse_path
from ansible_vault_companions.envelopes.node import PLAIN, Node
from ansible_vault_companions.envelopes.parsed_text import MOST_LISTED, parse_nodes
from ansible_vault_companions.refusals import Refused
from lib.needs import needs_pyyaml

needs_pyyaml()

Json = Union[None, dict[str, "Json"], list["Json"]]
KEYS = st.text(st.sampled_from('ab."\\[]0 \t\x1fé'), max_size=4)
STEPS = st.lists(KEYS | st.integers(0, 12), min_size=1, max_size=5).map(lambda steps: tuple(steps))
JSON = st.recursive(st.none(), lambda inner: st.dictionaries(KEYS, inner) | st.lists(inner), max_leaves=12)
NUMBER = re.compile(r"\[[0-9]+\]")


def make_node(path: KeyPath) -> Node:
    return Node(
        path=path, style=PLAIN, line=1, scalar_start=0, envelope_start=0, end=0, margin=b"", ending=b"\n", text=b"x"
    )


@settings(deadline=None, database=None)
@given(STEPS)
def test_steps(path: KeyPath) -> None:
    """What is written for a path has its steps."""
    typed = make_node(path).typed_path
    assert parse_path(typed) == path
    if not any(isinstance(step, str) and "[" in step for step in path):
        wanted = tuple(ANY_ITEM if isinstance(step, int) else step for step in path)
        assert parse_path(NUMBER.sub("[]", typed)) == wanted


@settings(deadline=None, database=None)
@given(JSON)
def test_nodes(document: Json) -> None:
    """Each node is found at the path that is written for it, and no other one is."""
    parsed = parse_nodes(json.dumps(document).encode())
    for node in parsed.nodes:
        wanted = [other for other in parsed.nodes if other.path == node.path] if node.path else []
        assert parsed.list_values_at(node.typed_path) == wanted, node


NO_PATHS = ["", ".", "a.", ".a", "a..b", "a[", "a]", "[-1]", "a[x]", "[0]a", '"a', 'a"b"', '"\\a"']


@pytest.mark.parametrize("typed", NO_PATHS)
def test_no_path(typed: str) -> None:
    """What is written otherwise leads nowhere, not even to the whole file."""
    assert parse_path(typed) == ()
    assert parse_nodes(b"a: 1\n").list_values_at(typed) == []


def test_any_items() -> None:
    """An item of one list may have its number while that of another has none."""
    parsed = parse_nodes(b"a: [[1, 2], [3, 4]]\n")
    wanted = {"a[][1]": [b"2", b"4"], "a[1][]": [b"3", b"4"], '"a"[00][0]': [b"1"]}
    assert {typed: [node.text for node in parsed.list_values_at(typed)] for typed in wanted} == wanted


def count_paths(monkeypatch: pytest.MonkeyPatch) -> list[Node]:
    """The nodes whose paths are written from now on."""
    written: list[Node] = []
    write = vars(Node)["typed_path"].fget

    def write_and_count(node: Node) -> str:
        written.append(node)
        return str(write(node))

    monkeypatch.setattr(Node, "typed_path", property(write_and_count))
    return written


def test_search(monkeypatch: pytest.MonkeyPatch) -> None:
    """Even where many nodes have the last key of the path, no path of a node is written."""
    written = count_paths(monkeypatch)
    parsed = parse_nodes(b"a: [" + b"{d: x}, " * 1_000 + b"]\nc: {d: 1}\n")
    assert [node.text for node in parsed.list_values_at("c.d")] == [b"1"]
    assert len(parsed.list_values_at("a[].d")) == 1_000
    assert written == []


@pytest.mark.parametrize("number", [0, 1, MOST_LISTED, MOST_LISTED + 1])
def test_list(monkeypatch: pytest.MonkeyPatch, number: int) -> None:
    """Only as many values as are listed have their paths written."""
    written = count_paths(monkeypatch)
    parsed = parse_nodes(b"a:\n" + b"- !vault $ANSIBLE_VAULT;1.1;AES256\n" * number)
    listed = number if number <= MOST_LISTED else 0
    names = ", ".join(f"a[{place}]" for place in range(listed))
    with pytest.raises(Refused) as refused:
        parsed.find_value_at("b")
    assert str(refused.value) == "there is no value b" + (f"; encrypted here: {names}" if names else "")
    assert len(written) == listed

"""The time that reading takes is linear in the length of a file, whatever it contains."""

from collections.abc import Callable
from time import process_time
from timeit import repeat

import pytest

from ansible_vault_companions.editing.encrypting_password import Choice
from ansible_vault_companions.editing.matching import DecryptedValue, find_matches
from ansible_vault_companions.editing.typed_tags import check_typed_tags
from ansible_vault_companions.envelopes import conflicts, header
from ansible_vault_companions.envelopes.detection import may_have_envelope
from ansible_vault_companions.envelopes.node import Node
from ansible_vault_companions.envelopes.parsed_text import ParsedYaml, parse_envelopes, parse_nodes
from ansible_vault_companions.guard.facts import is_placeholder
from ansible_vault_companions.passwords.labels import ANY
from ansible_vault_companions.passwords.password import Password
from ansible_vault_companions.passwords.sources import parse_vault_id
from ansible_vault_companions.tool import Decryption
from lib.needs import needs_pyyaml

needs_pyyaml()


# Each piece is repeated to make a hostile file.
PIECES = [
    b"$ANSIBLE_VAULT",
    b"$ANSIBLE_VAULT;1.1;AES256",
    b'"\\x24ANSIBLE_VAULT',
    b"  $ANSIBLE_VAULT;1.1;AES256\n  6162\n",
    b'"$ANSIBLE_VAULT;1.1;AES256\\n' + b"61" * 40 + b'", ',
    b"a: !vault |\n  $ANSIBLE_VAULT;1.1;AES256\n  6162\n",
    b" " * 4000 + b"$ANSIBLE_VAULT;1.1;AES256\n",
    b"!vault &" + b"x" * 4000 + b"\n$ANSIBLE_VAULT;1.1;AES256\n",
    b"$ANSIBLE_VAULT;1.1;AES256 # # # " + b"61" * 20 + b"\n",
    b"$ANSIBLE_VAULT;1 6161616161616161 ",
    *[b"!vault | ", b"!vault &a ", b"!vault", b"# \\n", b" ", b"\t", b"\n", b"- ", b"61", b"<<<<<<< ", b"<<<<<<< a\n"],
    *[b"!", b"!%", b"%7", b"!a", b"\\u00"],
    *[b"&a ", b",&", b", &a", b"%TAG ! !", b"  - ", b"\r", b"'", b"'a', "],
]
SMALL, TIMES = 1 << 15, 8
START = b"x: !vault |\n  $ANSIBLE_VAULT;1.1;AES256\n  61\n"
WORKS: dict[str, Callable[[bytes], object]] = {
    "the envelopes": lambda data: parse_envelopes(START + data),
    "every node": lambda data: parse_nodes(START + data),
    "a file that is no YAML": lambda data: parse_envelopes(b"[$ANSIBLE_VAULT;1.1;AES256" + data),
    "a line with a margin": lambda data: parse_envelopes(b"#" * len(data) + data),
    "a file without an envelope": may_have_envelope,
    "a whole vault": lambda data: header.is_whole_envelope(b"$ANSIBLE_VAULT;1.1;AES256\n" + data),
    "typed tags": lambda data: check_typed_tags([ParsedYaml(data)], ParsedYaml(data)),
    "text after an expression": lambda data: is_placeholder(b"{{ %b }} x" % data),
    "conflict markers": lambda data: (conflicts.is_unmerged(data), conflicts.split_sides(b"<<<<<<<\n" + data)),
}


@pytest.mark.parametrize("piece", PIECES, ids=lambda piece: repr(piece[:40]))
@pytest.mark.parametrize("work", WORKS.values(), ids=WORKS)
def test_linear_time(work: Callable[[bytes], object], piece: bytes) -> None:
    """A file that is eight times as long takes eight times as long, whatever it contains."""
    small = (piece * (SMALL // len(piece) + 1))[:SMALL]

    assert is_linear(lambda: work(small), lambda: work(small * TIMES))


def is_linear(small: Callable[[], object], large: Callable[[], object]) -> bool:
    def seconds(work: Callable[[], object]) -> float:
        return min(repeat(work, repeat=2, number=1, timer=process_time))

    # In quadratic time, it would take 64 times as long. Other processes hardly affect the processor time, and not that
    # of each of four measurements. Below a few milliseconds the clock says little.
    return any(seconds(large) < max(0.02, 24 * seconds(small)) for _ in range(4))


@pytest.mark.parametrize("place", ["a{}: ", "- "], ids=["keys", "items"])
def test_many_changes(place: str) -> None:
    """An edit of all values finds out for each of them what it was."""
    password = Password(parse_vault_id("dev@x"), b"", -1)

    def prepare(count: int) -> Callable[[], object]:
        def list_values(text: str) -> list[Node]:
            lines = (f"{place.format(number)}!vault {text} {number}\n" for number in range(count))
            return [value for value in parse_nodes("".join(lines).encode()).nodes if value.is_tagged]

        opened = [
            DecryptedValue(value, Decryption(b"", password, value.text, ANY), b"", 0) for value in list_values("old")
        ]
        typed = list_values("new")
        return lambda: find_matches(opened, typed, Choice([password]), set())

    assert is_linear(prepare(250), prepare(250 * TIMES))

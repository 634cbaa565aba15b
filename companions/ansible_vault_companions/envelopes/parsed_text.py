"""The envelopes of a file, or of a plaintext.

A file that begins like a vault is one. Otherwise PyYAML reads it, and a value is a scalar with the tag `!vault` or
below the key `__ansible_vault`, or one whose text begins with a header and digits. An envelope is a value that begins
with a header. Whatever else has a header and digits is a stray.

A document that need not be encrypted is not read as YAML, in which an indented example may be a text whose lines are
joined: it has only strays.
"""

from __future__ import annotations

from collections.abc import Callable, Iterable, Iterator, Sequence
from typing import NamedTuple

from ansible_vault_companions.envelopes.detection import may_have_envelope
from ansible_vault_companions.envelopes.header import MAGIC
from ansible_vault_companions.envelopes.key_paths import leads_to, parse_path
from ansible_vault_companions.envelopes.layout import Replacement, apply_replacements, replace_envelope
from ansible_vault_companions.envelopes.node import WHOLE, WITH_DIGITS, Node
from ansible_vault_companions.envelopes.strays import find_strays
from ansible_vault_companions.envelopes.yaml_nodes import BINARY, NotYaml, read_envelopes, read_nodes
from ansible_vault_companions.quoting import escape
from ansible_vault_companions.refusals import Refused

NOT_WRITABLE = (
    "its values cannot be written where they are; write each as `NAME: !vault |`, and indent comments below them less"
)

# How many values a message lists if a typed path leads nowhere.
MOST_LISTED = 20
NO_SCALAR_THERE = "{} is a list, a mapping or an alias; name a value in it"
VALUE_NOT_ENCRYPTED = "{} is not encrypted"


class ParsedText(NamedTuple):
    """The bytes of a file or of a plaintext, and the envelopes in them."""

    data: bytes
    # The envelopes, and what only has their tag.
    values: Sequence[Node] = ()
    # Why it cannot be read as YAML, empty if it can or need not be.
    fault: str = ""
    # Whether it is a document that need not be encrypted.
    is_prose: bool = False

    @property
    def is_vault(self) -> bool:
        return self.data.startswith(MAGIC)

    @property
    def hides_envelope(self) -> bool:
        """Whether a null character keeps an envelope that is mentioned elsewhere from being found."""
        return not self.is_vault and BINARY in self.data and WITH_DIGITS.search(self.data) is not None

    @property
    def envelopes(self) -> list[Node]:
        """The envelopes. A value that only has the tag is none."""
        return [value for value in self.values if value.is_envelope]

    def replace_envelopes(self, new: dict[Node, bytes]) -> bytes:
        """The data with new envelopes in place of these."""
        after = apply_replacements(self.data, [replace_envelope(value, text) for value, text in new.items()])
        if not self.is_vault:
            _require_texts(self.values, new, parse_envelopes(after, self.is_prose).values)
        return after


class ParsedYaml(NamedTuple):
    """A text in YAML, and every node of it, as edits, typed paths and the hook need them."""

    data: bytes
    nodes: Sequence[Node] = ()
    # Why it cannot be read, empty if it can.
    fault: str = ""

    def select_envelopes(self) -> ParsedText:
        """The envelopes, those outside of nodes last, and every node that only has their tag, even a list."""
        values = [node for node in self.nodes if node.is_value]
        return ParsedText(self.data, [*values, *find_strays(self.data, values)], self.fault)

    def rewrite(self, changes: Iterable[Replacement], texts: dict[Node, bytes]) -> ParsedYaml:
        """The text with these changes. It is read again: these nodes have the new texts, and all others stay."""
        after = parse_nodes(apply_replacements(self.data, changes))
        _require_texts(self.nodes, texts, after.nodes)
        return after

    def list_values_at(self, path: str) -> list[Node]:
        """The values at a typed path that are encrypted or have the tag, else all nodes there. A list item may also be
        written as `[]`."""
        steps = parse_path(path)
        nodes = [node for node in self.nodes if leads_to(steps, node.path)]
        return [node for node in nodes if node.is_value] or nodes

    def find_value_at(self, path: str, names_others: bool = True) -> Node:
        """The only one of the values at a typed path. A refusal names the others, unless that is forbidden."""
        values = self.list_values_at(path)
        if not values:
            envelopes = [node for node in self.nodes if node.is_envelope] if names_others else []
            names = [escape(node.typed_path) for node in envelopes] if len(envelopes) <= MOST_LISTED else []
            listed = f"; encrypted here: {', '.join(names)}" if names else ""
            raise Refused(f"there is no value {escape(path)}{listed}")
        if len(values) > 1:
            what = "number the items of lists, as in `users[0].name`, or rename a key that is there twice"
            raise Refused(f"{len(values)} values are at {escape(path)}; {what}")
        return values[0]


def parse_envelopes(data: bytes, is_prose: bool = False) -> ParsedText:
    """The envelopes of a file or of a plaintext, and the scalars that have the tag. A vault is no document,
    whatever its name."""
    if data.startswith(MAGIC):
        return ParsedText(data, _list_vault(data))
    if not may_have_envelope(data):
        return ParsedText(data, is_prose=is_prose)
    values, fault = ([], "") if is_prose else _read_yaml(data, read_envelopes)
    values = sorted([*values, *find_strays(data, values, is_prose)], key=lambda value: value.envelope_start)
    return ParsedText(data, values, fault, is_prose)


def parse_nodes(data: bytes) -> ParsedYaml:
    """Every node of a text in YAML."""
    if data.startswith(MAGIC):
        return ParsedYaml(data, _list_vault(data))
    return ParsedYaml(data, *_read_yaml(data, read_nodes))


def require_nodes(data: bytes) -> ParsedYaml:
    """Every node of a text, which must be YAML."""
    parsed = parse_nodes(data)
    if parsed.fault:
        raise Refused(parsed.fault)
    return parsed


def _require_texts(before: Iterable[Node], new: dict[Node, bytes], after: Iterable[Node]) -> None:
    """Refuses nodes with other texts than these, or than they had before."""
    wanted = [(node.path, new.get(node, node.text)) for node in before]
    if [(node.path, node.text) for node in after] != wanted:
        raise Refused(NOT_WRITABLE)


def _read_yaml(data: bytes, read: Callable[[bytes], Iterator[Node]]) -> tuple[list[Node], str]:
    """Nodes of a text, and why it cannot be read, which is empty if it can."""
    try:
        return [*read(data)], ""
    except NotYaml as fault:
        return [], str(fault)


def _list_vault(data: bytes) -> list[Node]:
    """The whole of a file as an envelope."""
    ending = b"\r\n" if b"\r\n" in data else b"\n"
    return [Node((), WHOLE, 0, 0, 0, len(data), b"", ending, data)]

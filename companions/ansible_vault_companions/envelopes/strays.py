"""Finds envelopes outside of YAML values."""

from __future__ import annotations

import re
from bisect import bisect_right
from collections.abc import Iterator

from ansible_vault_companions.envelopes.node import LOOSE, STRAY, WITH_DIGITS, Node
from ansible_vault_companions.envelopes.yaml_nodes import BINARY

# The lines of an envelope, each after the same margin. Most files have none, so this is compiled when there is one.
LINES_OF_STRAY = (
    rb"(?P<margin>[ \t]*(?:#[ \t]*)?)\$ANSIBLE_VAULT[^;\r\n]*;[^\r\n]*"
    rb"(?:\r?\n(?P=margin)[0-9a-fA-F]+(?=[ \t]*(?:\r?\n|\Z)))+"
)


def find_strays(data: bytes, values: list[Node], is_prose: bool = False) -> Iterator[Node]:
    """The envelopes outside of these values, and those within the text of one that is no envelope, but has the tag. A
    binary file has none."""
    if BINARY in data:
        return
    starts = [value.envelope_start for value in values]
    # After empty lines alone, Ansible reads neither a vault nor a value. A document may begin with an example.
    first = -1 if is_prose else len(data) - len(data.lstrip())
    number, place = 1, 0
    for header in WITH_DIGITS.finditer(data):
        begin = header.start()
        is_first_of_line = place == 0 or b"\n" in data[place:begin]
        number += data.count(b"\n", place, begin)
        place = begin
        before = bisect_right(starts, begin) - 1
        value = values[before] if before >= 0 and begin < values[before].end else None
        if not (value and value.is_envelope):
            # Only the first header in a line can have lines, so each line is read once.
            can_have_lines = is_first_of_line and not value and begin != first
            yield _make_stray(data, header, number, can_have_lines)


def _make_stray(data: bytes, header: re.Match[bytes], number: int, can_have_lines: bool) -> Node:
    """An envelope whose lines have one margin, or a loose one."""
    begin = header.start()
    line_start = data.rfind(b"\n", 0, begin) + 1
    lines = re.compile(LINES_OF_STRAY).match(data, line_start) if can_have_lines else None
    if not lines or lines.end("margin") != begin:
        return Node((), LOOSE, number, begin, begin, header.end(), b"", b"\n", header[0])
    margin = lines["margin"]
    text = b"".join(line[len(margin) :] + b"\n" for line in lines[0].splitlines())
    ending = b"\r\n" if b"\r\n" in lines[0] else b"\n"
    return Node((), STRAY, number, lines.start(), lines.start(), lines.end(), margin, ending, text)

"""Replaces envelopes and plaintexts in a file, in the layout that they have there."""

from __future__ import annotations

import re
from typing import Iterable, NamedTuple

from ansible_vault_companions.envelopes.node import LITERAL, STRAY, WHOLE, Node
from ansible_vault_companions.refusals import Refused

# What YAML does not allow, or takes for the end of a line. Python compiles it slowly, and a set of all others ten times
# as slowly.
UNSHOWN = "[\0-\x08\x0b-\x1f\x7f-\x9f\u2028\u2029\ud800-\udfff\ufeff\ufffe\uffff]"
BLOCK_HEADER = re.compile(rb"[|>][-+0-9]*")
BEGINS_WITH_BLANK = re.compile(rb"\n*[ \t]")
# Blanks up to the end of a line, and lines of blanks below it.
BLANKS_BELOW = re.compile(rb"(?:[ \t]*(?:(?:\r\n?|\n)[ \t]*)*(?=[\r\n]|\Z))?")
# What precedes a key or the text of an item in its line.
DASHES = re.compile(rb" *(?:- +)*")
NOT_UTF_8 = "it is not UTF-8"
NO_HEADER = "the `|` of its block cannot be found"


class Replacement(NamedTuple):
    """The bytes from `start` to `end`, and their replacement."""

    start: int
    end: int
    text: bytes


def apply_replacements(data: bytes, changes: Iterable[Replacement]) -> bytes:
    pieces, place = [], 0
    for change in sorted(changes, key=lambda change: change.start):
        pieces += [data[place : change.start], change.text]
        place = change.end
    return b"".join([*pieces, data[place:]])


def indent_lines(text: bytes, margin: bytes, end: bytes) -> bytes:
    """The text with this line ending, and with a margin before each line that is not empty."""
    return end.join(margin + line if line else b"" for line in text.split(b"\n"))


def replace_envelope(value: Node, envelope: bytes) -> Replacement:
    """Puts another envelope in its place, in the same layout: a literal stays one, and others get double quotes."""
    if value.style == WHOLE:
        return Replacement(value.envelope_start, value.end, envelope.replace(b"\n", value.ending))
    if value.style in (LITERAL, STRAY):
        lines = indent_lines(envelope.rstrip(b"\n"), value.margin, value.ending)
        return Replacement(value.envelope_start, value.end, lines)
    return Replacement(value.envelope_start, value.end, b'"%s"' % envelope.replace(b"\n", b"\\n"))


def put_plaintext(data: bytes, value: Node, text: bytes) -> list[Replacement]:
    """Puts plaintext in its place: a block becomes a literal if it can, and any other value gets double quotes."""
    if value.style == WHOLE:
        return [Replacement(value.envelope_start, value.end, text)]
    if value.style == STRAY:
        lines = indent_lines(text.removesuffix(b"\n"), value.margin, value.ending)
        return [Replacement(value.envelope_start, value.end, lines)]
    try:
        characters = text.decode()
    except UnicodeDecodeError:
        raise Refused(NOT_UTF_8) from None
    if value.style == LITERAL and _can_be_shown(characters):
        return _put_literal(data, value, text)
    return [put_in_quotes(value, characters)]


def _can_be_shown(text: str) -> bool:
    """Whether a literal can have a text. If all of it is printable, the pattern is not even compiled."""
    return text.replace("\n", "").isprintable() or not re.search(UNSHOWN, text)


def put_envelope(data: bytes, value: Node, envelope: bytes) -> list[Replacement]:
    """Puts an envelope in place of a text: as a block, as Ansible's tool does, or within brackets in double quotes.
    What follows a block's header in its line stays."""
    if value.is_flow:
        return [Replacement(value.scalar_start, value.end, b'"%s"' % envelope.replace(b"\n", b"\\n"))]
    # Ansible's tool indents by ten.
    margin = b" " * (find_column(data, value.scalar_start) + 10)
    lines = indent_lines(envelope.rstrip(b"\n"), margin, value.ending)
    header = BLOCK_HEADER.match(data, value.scalar_start)
    # Empty lines above a typed text go with it: Ansible reads no envelope below one.
    end = header.end() if header else value.end
    place = find_line_end(data, end)
    stop = max(place, value.end)
    block = Replacement(place, stop, value.ending + lines)
    return [Replacement(value.scalar_start, end, b"|"), block, drop_blanks(data, stop)]


def drop_blanks(data: bytes, place: int) -> Replacement:
    """Removes the blanks behind a block, and those of lines below it that have nothing else: they would be a part of
    it, and Ansible reads no envelope with blanks."""
    found = BLANKS_BELOW.match(data, place)
    assert found
    return Replacement(place, found.end(), found[0].translate(None, b" \t"))


def put_in_quotes(value: Node, text: str) -> Replacement:
    """Puts a text in double quotes in its place."""
    # Most texts become blocks, and do not need this module.
    import json

    escaped = re.sub(UNSHOWN, lambda match: f"\\U{ord(match[0]):08x}", json.dumps(text, ensure_ascii=False))
    return Replacement(value.scalar_start, value.end, escaped.encode())


def _put_literal(data: bytes, value: Node, text: bytes) -> list[Replacement]:
    """The replacements of the header, which tells how the text begins and ends, and of the lines."""
    header = BLOCK_HEADER.match(data, value.scalar_start)
    if not header:
        raise Refused(NO_HEADER)
    indicator = b"2" if BEGINS_WITH_BLANK.match(text) else b""
    new_header = b"|" + indicator + _find_chomping(text)
    margin = b" " * (find_column(data, value.scalar_start) + 2)
    # A text that is empty has no line.
    start = value.envelope_start if text else value.envelope_start - len(value.ending)
    lines = indent_lines(text.removesuffix(b"\n"), margin, value.ending)
    return [Replacement(value.scalar_start, header.end(), new_header), Replacement(start, value.end, lines)]


def _find_chomping(text: bytes) -> bytes:
    """The indicator that tells which line ends at the end of a literal belong to its text."""
    if not text.endswith(b"\n"):
        return b"-"
    if text == b"\n" or text.endswith(b"\n\n"):
        return b"+"
    return b""


def find_line_end(data: bytes, place: int) -> int:
    """Where the line ends. A pattern would take much longer for a long line, which many values may share."""
    end = data.find(b"\n", place)
    end = len(data) if end < 0 else end
    other = data.find(b"\r", place, end)
    return end if other < 0 else other


def find_column(data: bytes, place: int) -> int:
    """The column of the key or dash to which a value belongs."""
    dashes = DASHES.match(data, data.rfind(b"\n", 0, place) + 1)
    assert dashes
    is_item = data[dashes.end() : dashes.end() + 1] in (b"!", b"&", b"|")
    return dashes[0].rfind(b"-") if is_item and b"-" in dashes[0] else len(dashes[0])

"""The nodes of a YAML file, as PyYAML reads them. Ansible uses PyYAML as well."""

from __future__ import annotations

import re
import sys
from collections.abc import Callable, Iterator
from functools import lru_cache
from typing import Any, Union

from ansible_vault_companions.envelopes.header import LINE_END, MAGIC
from ansible_vault_companions.envelopes.key_paths import MERGE, MERGE_TAG
from ansible_vault_companions.envelopes.node import (
    ALIAS,
    FOLDED,
    JSON_KEY,
    LITERAL,
    NO_SCALAR,
    PLAIN,
    TAGS,
    WITH_DIGITS,
    Node,
)
from ansible_vault_companions.quoting import escape
from ansible_vault_companions.refusals import Refused

BYTE_ORDER_MARK = b"\xef\xbb\xbf"
# YAML has no such character, but other files do, in which escapes mean nothing.
BINARY = b"\0"
# What precedes the text of a scalar: tag, anchor, comments. A tag, as `!<a,b>`, ends at white space or with the scalar.
PROPERTIES = re.compile(rb"(?:(?:![^ \t\r\n]*|&[-\w]*)(?:[ \t\r\n]|(?<=[ \t\r\n])#[^\r\n]*)*)*")
# The first line of a block with text.
FIRST_LINE = re.compile(rb"[^\n\r]*(?:\r\n?|\n)(?:[ \t]*(?:\r\n?|\n))*(?P<margin>[ \t]*)")
BLANKS = b" \t\r\n"
# The first word of an envelope, among characters.
HEADER_WORD = MAGIC.decode()

NO_PYYAML = (
    "PyYAML, which reads YAML, is missing for {}: install Debian's python3-yaml, or PyYAML with pip without --user"
)
NOT_YAML = "it cannot be read as YAML: {}"
WRONG_SYNTAX = "its syntax is wrong"
NULL = "it has a null character; save it as UTF-8"
HALF = "it has half a character"
SAVE_AS_UTF_8 = "it is not UTF-8; save it as UTF-8"
# The key or number of the next node in each collection; None while a key comes next.
Steps = list[Union[str, int, None]]


class NotYaml(Refused):
    """A text that cannot be read as YAML."""


@lru_cache(maxsize=None)
def require_pyyaml() -> Any:
    """PyYAML, which a companion that reads no YAML can do without."""
    try:
        import yaml
    except ImportError:
        raise Refused(NO_PYYAML.format(escape(sys.executable))) from None
    return yaml


def read_envelopes(data: bytes) -> Iterator[Node]:
    """The values among the scalars: those that have the tag or an envelope. Raises NotYaml."""
    return _read_wanted(data, _is_value)


def read_nodes(data: bytes) -> Iterator[Node]:
    """Every node, but of the scalars that are keys only values. Raises NotYaml."""
    return _read_wanted(data, _is_node)


def _is_node(steps: Steps, event: Any) -> bool:
    is_plain_key = steps[-1:] == [None] and hasattr(event, "value")
    return not is_plain_key or _is_value(steps, event)


def _read_wanted(data: bytes, is_wanted: Callable[[Steps, Any], bool]) -> Iterator[Node]:
    skipped = len(BYTE_ORDER_MARK) if data.startswith(BYTE_ORDER_MARK) else 0
    text = _decode(data[skipped:])
    places = _Places(text, skipped)
    ending = b"\r\n" if b"\r\n" in data else b"\n"
    for steps, is_flow, event in _walk(text):
        if is_wanted(steps, event):
            yield _make_node(data, places, ending, steps, is_flow, event)


def _decode(data: bytes) -> str:
    if BINARY in data:
        raise NotYaml(NOT_YAML.format(NULL))
    try:
        return data.decode()
    except UnicodeDecodeError:
        raise NotYaml(NOT_YAML.format(SAVE_AS_UTF_8)) from None


class _Places:
    """Finds the bytes at which characters of a text begin. Nearly all are asked for in order."""

    def __init__(self, text: str, skipped: int) -> None:
        self.text = text
        self.character, self.byte = 0, skipped

    def find(self, character: int) -> int:
        if character < self.character:
            return self.byte - len(self.text[character : self.character].encode())
        self.byte += len(self.text[self.character : character].encode())
        self.character = character
        return self.byte


def _walk(text: str) -> Iterator[tuple[Steps, bool, Any]]:
    """Each scalar, alias and beginning of a collection, the steps to it, and whether it is within brackets."""
    yaml = require_pyyaml()
    steps: Steps = []
    are_flow = [False]
    for event in _parse(yaml, text):
        if isinstance(event, yaml.CollectionEndEvent):
            steps.pop()
            are_flow.pop()
            _pass_node(steps, "")
        elif isinstance(event, yaml.NodeEvent):
            yield steps, are_flow[-1], event
            if isinstance(event, yaml.CollectionStartEvent):
                steps.append(None if isinstance(event, yaml.MappingStartEvent) else 0)
                are_flow.append(bool(event.flow_style))
            else:
                _pass_node(steps, _find_name(event))


def _find_name(event: Any) -> str:
    """What a scalar or an alias is called as a key."""
    return MERGE if getattr(event, "tag", None) == MERGE_TAG else getattr(event, "value", "")


def _parse(yaml: Any, text: str) -> Iterator[Any]:
    loader = getattr(yaml, "CSafeLoader", yaml.SafeLoader)
    try:
        yield from yaml.parse(text, loader)
    except yaml.YAMLError as fault:
        mark = getattr(fault, "problem_mark", None)
        where = f"line {mark.line + 1}: " if mark else ""
        # Without libyaml, PyYAML says what is wrong with words of the file.
        why = WRONG_SYNTAX if loader is yaml.SafeLoader else getattr(fault, "problem", None) or WRONG_SYNTAX
        raise NotYaml(where + NOT_YAML.format(why)) from None


def _pass_node(steps: Steps, key: str) -> None:
    """Goes on after a node of the innermost collection. If the node is a key, its value comes next."""
    if steps:
        step = steps[-1]
        steps[-1] = step + 1 if isinstance(step, int) else key if step is None else None


def _is_value(steps: Steps, event: Any) -> bool:
    text = getattr(event, "value", None)
    if text is None:
        return False
    is_tagged = event.tag in TAGS or steps[-1:] == [JSON_KEY]
    return is_tagged or text.startswith(HEADER_WORD) and bool(WITH_DIGITS.match(text.encode(errors="replace")))


def _make_node(data: bytes, places: _Places, ending: bytes, steps: Steps, is_flow: bool, event: Any) -> Node:
    first = places.find(event.start_mark.index)
    end = places.find(event.end_mark.index)
    properties = PROPERTIES.match(data, first, end)
    assert properties
    begin = properties.end()
    own_ending = LINE_END.search(data, begin, end)
    style = _find_style(event)
    if style in (LITERAL, FOLDED):
        end = begin + len(data[begin:end].rstrip(BLANKS))
    line = FIRST_LINE.match(data, begin, end) if style == LITERAL else None
    start = line.start("margin") if line else begin
    return Node(
        path=tuple("" if step is None else step for step in steps),
        style=style,
        line=event.start_mark.line + 1 + len(LINE_END.findall(data, first, start)),
        scalar_start=begin,
        envelope_start=start,
        end=end,
        margin=line["margin"] if line else b"",
        ending=own_ending[0] if own_ending else ending,
        text=_read_text(steps, event),
        tag=getattr(event, "tag", None) or "",
        anchor=event.anchor or "",
        is_key=None in steps,
        is_flow=is_flow,
    )


def _find_style(event: Any) -> str:
    if hasattr(event, "value"):
        return event.style or PLAIN
    return NO_SCALAR if hasattr(event, "tag") else ALIAS


def _read_text(steps: Steps, event: Any) -> bytes:
    """The text of a scalar. White space around an envelope does not count."""
    try:
        text: bytes = getattr(event, "value", "").encode()
    except UnicodeEncodeError:
        raise NotYaml(f"line {event.start_mark.line + 1}: " + NOT_YAML.format(HALF)) from None
    return text.strip() + b"\n" if _is_value(steps, event) and text.strip().startswith(MAGIC) else text

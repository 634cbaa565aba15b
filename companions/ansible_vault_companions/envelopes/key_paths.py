"""The keys and list items that lead to a node of YAML, and how users type them."""

from __future__ import annotations

import re
from functools import lru_cache
from typing import Union

# The key that merges a mapping into another, and the tag with which any other key does.
MERGE, MERGE_TAG = "<<", "tag:yaml.org,2002:merge"

# A key that needs no quotes in a typed path.
UNQUOTED_KEY = re.compile(r'[^."\[\]\x00-\x1f]+')
# A step of a typed path: an item, or a key with a dot before it. It is compiled only where somebody has typed one.
STEP = r'\[([0-9]{0,9})\]|\.(?:([^."\[\]\x00-\x1f]+)|"((?:[^"\\]|\\["\\])*)")'
# What stands for the number of any list item, typed as `[]`.
ANY_ITEM = -1

# The keys and the numbers of list items that lead to a node. A key that is no scalar is empty.
KeyPath = tuple[Union[str, int], ...]


@lru_cache(maxsize=1024)
def type_key(key: str) -> str:
    return key if UNQUOTED_KEY.fullmatch(key) else quote_key(key)


def quote_key(key: str) -> str:
    """A key in double quotes, in which a backslash precedes a double quote or a backslash."""
    return '"%s"' % re.sub(r'(["\\])', r"\\\1", key)


def parse_path(typed: str) -> KeyPath:
    """The steps of a typed path; none if it is not written like one."""
    typed = typed if typed.startswith("[") else f".{typed}"
    steps = [*re.finditer(STEP, typed)]
    is_path = "".join(step[0] for step in steps) == typed
    return tuple(map(_read_step, steps)) if is_path else ()


def _read_step(step: re.Match[str]) -> str | int:
    number, key, quoted = step.groups()
    if number is not None:
        return int(number or ANY_ITEM)
    return key or re.sub(r'\\(["\\])', r"\1", quoted)


def leads_to(steps: KeyPath, path: KeyPath) -> bool:
    """Whether these steps of a typed path lead to a node with this path. There may be many nodes, so no path is
    written."""
    if ANY_ITEM not in steps or len(steps) != len(path):
        return steps == path != ()
    return all(step == own or step == ANY_ITEM and isinstance(own, int) for step, own in zip(steps, path))

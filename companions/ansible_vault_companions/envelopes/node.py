"""A node of YAML that is an envelope or may become one, or an envelope elsewhere: its text, place and layout."""

from __future__ import annotations

import re
from typing import NamedTuple

from ansible_vault_companions.envelopes.header import is_whole_envelope, read_label
from ansible_vault_companions.envelopes.key_paths import KeyPath, type_key
from ansible_vault_companions.quoting import escape
from ansible_vault_companions.refusals import Refused

# The styles of scalars; of a list or a mapping; and of an alias.
LITERAL = "|"
FOLDED = ">"
PLAIN = ""
NO_SCALAR = "none"
ALIAS = "alias"
# A whole file; an envelope elsewhere whose lines have one margin, so that it can be replaced; and any other.
WHOLE = "vault"
STRAY = "stray"
LOOSE = "loose"
# The tags of an encrypted value in YAML, and its key in JSON.
TAGS = ("!vault", "!vault-encrypted")
JSON_KEY = "__ansible_vault"

# The beginning of a header.
START = re.compile(rb"\$ANSIBLE_VAULT[^;\r\n]*;")
# A header with digits after it, which no text has that only speaks of envelopes. In a folded scalar a space takes the
# place of the line end, and in JSON an escape does. The lookahead and the limits keep a search linear.
WITH_DIGITS = re.compile(
    rb"\$ANSIBLE_VAULT[^;\r\n\\]{0,240};"
    rb"(?:[^\r\n\\]{1,240}?[\s#]|[^\r\n\\]{1,240}(?=[\r\n\\])(?:\\[rn]|[\s#\\]){1,2000})[0-9a-fA-F]{16}"
)
# A header whose line goes on with digits: a space, a comment mark or an escape is in place of the line end.
JOINED_LINES = re.compile(rb"(?P<header>[^\r\n]{0,300}?)(?:\\[rn]|[ \t#\\]){1,80}[0-9a-fA-F]{16}")

WITHIN_TEXT = "an envelope within other text; write it as a value (`NAME: !vault |`), or encrypt the whole file"
LINES_JOINED = (
    "its lines are joined, since it is not a block; write it as a block (`NAME: !vault |`), or, if the file is to be a "
    "vault, let the file begin with it"
)


class Node(NamedTuple):
    """An envelope, a scalar that is tagged as one, or, if all are asked for, any node."""

    path: KeyPath
    # How it is laid out: PyYAML's style of a scalar, or another of those above.
    style: str
    # The line of its text, from 1; 0 if it is a whole file.
    line: int
    # Where its scalar begins, after tag and anchor, and the bytes that another envelope takes the place of. They
    # differ only in a literal.
    scalar_start: int
    envelope_start: int
    end: int
    # What precedes each line, and the line ending.
    margin: bytes
    ending: bytes
    # As the parser reads it.
    text: bytes
    tag: str = ""
    # The name of its anchor, or of the one that an alias stands for; empty if there is none.
    anchor: str = ""
    # Whether it is a key, or part of one; and whether it is within brackets, where no block can be.
    is_key: bool = False
    is_flow: bool = False

    @property
    def typed_path(self) -> str:
        """The path as users type it: keys with dots between them, and the numbers of list items, as in `users[0].name`.
        A key with a dot, a bracket or a double quote is in double quotes."""
        steps = (f"[{step}]" if isinstance(step, int) else f".{type_key(step)}" for step in self.path)
        return "".join(steps).removeprefix(".")

    @property
    def name(self) -> str:
        """The key that it belongs to; empty for the item of a list."""
        steps = self.path[:-1] if self.path[-1:] == (JSON_KEY,) else self.path
        return next((step for step in steps[-1:] if isinstance(step, str)), "")

    @property
    def is_tagged(self) -> bool:
        """Whether its text is to be encrypted, wherever its envelope is."""
        return self.tag in TAGS or self.path[-1:] == (JSON_KEY,)

    @property
    def is_value(self) -> bool:
        """Whether it is tagged as an envelope, or is one without a tag."""
        return self.is_tagged or WITH_DIGITS.match(self.text) is not None

    @property
    def label(self) -> str | None:
        joined = JOINED_LINES.match(self.text)
        return read_label(joined["header"] if joined else self.text)

    @property
    def is_envelope(self) -> bool:
        """Whether it is meant as an envelope, even if it is damaged."""
        return self.style == WHOLE or self.is_value and START.match(self.text) is not None

    @property
    def is_whole(self) -> bool:
        return is_whole_envelope(self.text)

    @property
    def is_text(self) -> bool:
        """Whether it is a text, which can be encrypted, and no list, mapping or alias."""
        return self.style not in (NO_SCALAR, ALIAS)

    @property
    def is_elsewhere(self) -> bool:
        """Whether it is neither a whole file nor a value, as an example: a file with nothing else is not encrypted."""
        return self.style in (STRAY, LOOSE)

    @property
    def is_loose(self) -> bool:
        """Whether only its header is known, as within other text: it can be neither read nor judged nor replaced."""
        return self.style == LOOSE

    def describe_place(self, path: str) -> str:
        """The path, with the line number if it is not the whole file, for a message."""
        return f"{escape(path)}:{self.line}" if self.line else escape(path)

    def require_readable(self) -> bytes:
        """What ansible-vault reads."""
        if self.is_loose:
            raise Refused(WITHIN_TEXT)
        if not self.is_envelope:
            raise Refused("it has the tag `!vault` but is plaintext")
        if JOINED_LINES.match(self.text):
            raise Refused(LINES_JOINED)
        return self.text

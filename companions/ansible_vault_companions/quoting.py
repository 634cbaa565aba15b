"""Puts texts and names into messages: in printable form, or as words of a shell command, ready to type."""

from __future__ import annotations

import os
import re

# What bash and zsh read by number within `$'..'`.
ESCAPED = r"[^ -&(-\[\]-~]"


def escape(name: str) -> str:
    """A printable name as it is, and any other as Python writes it: in quotes, with escapes."""
    return name if name.isprintable() else ascii(name)


def escape_lines(text: str) -> str:
    """A message in printable form. Its only control characters are the ends of its lines."""
    return "".join(sign if sign.isprintable() or sign == "\n" else ascii(sign)[1:-1] for sign in text)


def quote_word(text: str) -> str:
    """A path as a word of a shell command in a message. No program takes it for an option."""
    path = f"./{text}" if text.startswith("-") else text
    if path.isprintable():
        # Most runs quote nothing.
        import shlex

        return shlex.quote(path)
    escaped = re.sub(ESCAPED, lambda byte: f"\\{ord(byte[0]):03o}", os.fsencode(path).decode("latin-1"))
    return f"$'{escaped}'"

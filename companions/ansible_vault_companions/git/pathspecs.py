"""Pathspecs: words by which git means one file alone."""

from __future__ import annotations

import re

from ansible_vault_companions.quoting import quote_word

# A path in which git sees no pattern.
SIMPLE_PATH = re.compile(r"[\w./][\w./@+,-]*", re.ASCII)


def make_pathspec(path: str, is_below_top: bool = False) -> str:
    """A word by which git means this file alone, from the current directory or from any of its repository."""
    if SIMPLE_PATH.fullmatch(path):
        return f":/{path}" if is_below_top else path
    magic = "top,literal" if is_below_top else "literal"
    return quote_word(f":({magic}){path}")

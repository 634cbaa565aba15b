"""The names of temporary files that companions write beside others, and leave behind if they are killed."""

from __future__ import annotations

import re

PREFIX, SUFFIX = ".ansible-vault-", ".new"
NAME = re.compile(f"{re.escape(PREFIX)}[a-z0-9_]{{8}}{re.escape(SUFFIX)}")


def is_leftover(name: str) -> bool:
    """Whether a companion gives such a name. Only then, a search skips the file: no vault is to hide there."""
    return name.startswith(PREFIX) and NAME.fullmatch(name) is not None

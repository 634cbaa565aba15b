"""What the name of a file says: whether it is prose, or YAML."""

from __future__ import annotations

from collections.abc import Iterable

from ansible_vault_companions.envelopes.parsed_text import ParsedText
from ansible_vault_companions.envelopes.yaml_nodes import BINARY

# Documents. An envelope in one that no password decrypts is an example.
PROSE = (".md", ".rst", ".adoc", ".html")
YAML = (".yml", ".yaml", ".json")


def is_prose(path: str) -> bool:
    return path.lower().endswith(PROSE)


def is_yaml(path: str) -> bool:
    return path.lower().endswith(YAML)


def find_fault(parsed: ParsedText, paths: Iterable[str]) -> str:
    """Why a file that may have an envelope cannot be read: it is no YAML, but one of its paths has the name of it; else
    empty."""
    if not any(map(is_yaml, paths)):
        return ""
    return parsed.fault if parsed.values or BINARY in parsed.data else ""

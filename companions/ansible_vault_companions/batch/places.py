"""Where an envelope is: in a file, or in the plaintext of another envelope."""

from __future__ import annotations

from typing import NamedTuple, Optional

from ansible_vault_companions.envelopes.node import Node
from ansible_vault_companions.quoting import escape


class Place(NamedTuple):
    path: str
    # The envelope that has it in its plaintext.
    outer: Optional[Place]
    # Its line, 0 if it is the whole of a file or of a plaintext; the keys that lead to it, and its own one. The keys of
    # a plaintext are secret, so these are empty there.
    line: int
    key_path: str
    name: str
    label: Optional[str]

    def describe(self, is_named: bool) -> str:
        """The place for a message; with names, those of the values and labels, too."""
        if self.outer:
            where = f"{self.outer.describe(is_named)}: in its plaintext, line {max(self.line, 1)}"
        else:
            where = f"{escape(self.path)}:{self.line}" if self.line else escape(self.path)
        names = (self.name, self.label or "no label") if is_named else ()
        return ": ".join([where, *(escape(name) for name in names if name)])

    def describe_position(self) -> dict[str, object]:
        """The place in its file or plaintext, and that of the envelope around it, for a program."""
        within = self.outer.describe_position() if self.outer else None
        return {"line": self.line or None, "key_path": self.key_path or None, "within": within}


def find_place(value: Node, path: str, outer: Place | None) -> Place:
    key_path, name = ("", "") if outer else (value.typed_path, value.name)
    return Place(path, outer, value.line, key_path, name, value.label)

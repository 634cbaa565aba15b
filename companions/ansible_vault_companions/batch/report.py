"""What check and rotate report on envelopes, files and labels."""

from __future__ import annotations

import argparse
import json
from collections import Counter
from dataclasses import dataclass, field
from typing import NamedTuple, Optional

from ansible_vault_companions.batch.places import Place
from ansible_vault_companions.quoting import escape

# What came of an envelope, a file or a label.
DECRYPTED = "decrypted"
LISTED = "listed"
# An envelope has got the new password, would get it in a dry run, or has it already.
ROTATED = "rotated"
TO_BE_ROTATED = "to be rotated"
KEPT = "kept"
OTHER_LABEL = "other label"
SKIPPED = "skipped"
FAILED = "failed"
HIDDEN = "mentions an envelope but is not searched, because it contains a null character"
NO_POSITION: dict[str, object] = {"line": None, "key_path": None, "within": None}


def add_json(parser: argparse.ArgumentParser) -> None:
    parser.add_argument("--json", action="store_true", help="print each result as a JSON object on one line")


class Entry(NamedTuple):
    """A result."""

    result: str
    message: str = ""
    # Its file, its envelope, and its label if it has neither.
    path: str = ""
    place: Optional[Place] = None
    label: Optional[str] = None

    def write_text(self, is_named: bool) -> str:
        """The place and the message. The place may have names."""
        where = self.place.describe(is_named) if self.place else escape(self.path)
        return ": ".join(part for part in (where, self.message) if part)

    def write_json(self) -> str:
        """All of it, in a line. Bytes of a path that are not UTF-8 are between \\udc80 and \\udcff."""
        place = self.place
        return json.dumps(
            {
                "path": self.path or None,
                **(place.describe_position() if place else NO_POSITION),
                "label": place.label if place else self.label,
                "result": self.result,
                "message": self.message,
            }
        )


@dataclass
class Report:
    """The results for an envelope or a file."""

    entries: list[Entry] = field(default_factory=list)
    # The labels of envelopes, except those that are not wanted.
    labels: set[str | None] = field(default_factory=set)

    def add(self, other: Report) -> None:
        self.entries += other.entries
        self.labels |= other.labels

    def add_envelope(self, result: str, place: Place, message: str = "") -> None:
        self.entries.append(Entry(result, message, place.path, place))

    def add_file(self, result: str, path: str, message: str) -> None:
        self.entries.append(Entry(result, message, path))

    def add_hidden(self, path: str, outer: Place | None) -> None:
        """Names a file, or the envelope of a plaintext, in which no envelope is looked for."""
        what = "its plaintext" if outer else "it"
        self.entries.append(Entry(SKIPPED, f"{what} {HIDDEN}", path, outer))

    def count(self, *results: str) -> int:
        return sum(entry.result in results for entry in self.entries)

    def remove(self, *results: str) -> None:
        self.entries = [entry for entry in self.entries if entry.result not in results]


class Total:
    """How many results there are of each kind, and the labels."""

    def __init__(self) -> None:
        self.counts: Counter[str] = Counter()
        self.labels: set[str | None] = set()
        # The labels that are not wanted.
        self.others: Counter[str] = Counter()

    def add(self, report: Report) -> None:
        self.counts.update(entry.result for entry in report.entries)
        self.labels |= report.labels
        others = (entry.place for entry in report.entries if entry.result == OTHER_LABEL)
        self.others.update(place.label or "" for place in others if place)

    def find_status(self) -> int:
        """The exit status: 1 if anything failed, or if a dry run finds something to do."""
        return 1 if self.counts[FAILED] or self.counts[TO_BE_ROTATED] else 0

    def count_others(self) -> str:
        """The number of envelopes with other labels, in total and for each label, as text."""
        labels = ", ".join(f"{escape(label)} {count}" for label, count in sorted(self.others.items()))
        return f"{sum(self.others.values())} with other labels" + (f" ({labels})" if labels else "")

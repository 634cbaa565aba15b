"""Git's conflict markers: the sides of a text that has them, and two whole files between them."""

from __future__ import annotations

import re
from collections import Counter
from collections.abc import Iterator

# How each marker begins, before each side and at the end.
OURS_MARKER = b"<" * 7
BASE_MARKER = b"|" * 7
THEIRS_MARKER = b"=" * 7
END_MARKER = b">" * 7
# A line that is a marker; and one that is a marker or, by the attribute `conflict-marker-size`, a longer one. A longer
# line of equal signs is a title. These are compiled only where a text may have a marker.
MARKER = rb"(?m)^(<{7}|\|{7}|={7}|>{7})(?:[ \t][^\r\n]*)?\r?(?:\n|\Z)"
LONGER = rb"(?m)^(?:<{7,}|\|{7,}|>{7,})(?:[ \t][^\r\n]*)?\r?$"

# What stands in place of a side for a line that is itself a marker, and for lines outside of conflicts.
IS_MARKER, NO_SIDE = b"marker", b""

UNMERGED = "has git's conflict markers"
LONG = f"it {UNMERGED}, but no whole conflict between markers of seven characters; take a side with `git checkout`"
STILL = "it still has git's conflict markers: choose between the sides, and remove the markers"


def is_unmerged(text: bytes) -> bool:
    """Whether a text has a marker other than equal signs, which may also be a title."""
    may_have_marker = any(marker in text for marker in (OURS_MARKER, BASE_MARKER, END_MARKER))
    return may_have_marker and re.search(LONGER, text) is not None


def count_markers(text: bytes) -> Counter[bytes]:
    """How often a text has each line that is a marker, or that would be taken for one in a conflict."""
    return Counter(match[0].rstrip() for match in re.finditer(MARKER, text))


def split_parts(text: bytes, is_unmerged: bool = True) -> Iterator[tuple[bytes, bytes]]:
    """The lines between two markers, with the marker of their side before them, or NO_SIDE; and each line that is a
    marker, with IS_MARKER. A text that git has merged may still have lines that look like markers."""
    side, place = NO_SIDE, 0
    for match in re.finditer(MARKER, text) if is_unmerged else ():
        if not (side or match[1] == OURS_MARKER):
            continue
        if place < match.start():
            yield side, text[place : match.start()]
        yield IS_MARKER, match[0]
        side = NO_SIDE if match[1] == END_MARKER else match[1]
        place = match.end()
    if place < len(text):
        yield side, text[place:]


def split_sides(text: bytes) -> dict[bytes, bytes]:
    """The text of each side, by its marker; empty if there is no whole conflict."""
    if OURS_MARKER not in text:
        return {}
    parts = [*split_parts(text)]
    markers = [part[: len(END_MARKER)] for kind, part in parts if kind == IS_MARKER]
    if not {*markers} >= {OURS_MARKER, THEIRS_MARKER, END_MARKER} or markers[-1] != END_MARKER:
        return {}
    sides = sorted({*markers} - {END_MARKER})
    return {side: b"".join(part for kind, part in parts if kind in (NO_SIDE, side)) for side in sides}


def join_sides(ours: bytes, theirs: bytes) -> bytes:
    """A conflict of two whole files."""
    end = b"\r\n" if b"\r\n" in ours else b"\n"
    texts = [text if not text or text.endswith(b"\n") else text + end for text in (ours, theirs)]
    return OURS_MARKER + b" ours" + end + texts[0] + THEIRS_MARKER + end + texts[1] + END_MARKER + b" theirs" + end

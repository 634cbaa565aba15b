"""What is typed after `!vault`, or after a word that looks like it, is encrypted, or the edit is refused. A new value
that is nearly one with the tag is saved and named.

Only what an edit adds or changes counts. What was shown in plaintext is the user's own, whatever it is, and may move.
"""

from __future__ import annotations

import re
from bisect import bisect_right
from collections import Counter
from collections.abc import Iterable, Iterator

from ansible_vault_companions.envelopes.node import NO_SCALAR, PLAIN, Node
from ansible_vault_companions.envelopes.parsed_text import ParsedYaml
from ansible_vault_companions.refusals import Refused

# Behind another character of its line, it is text.
DIRECTIVE = re.compile(rb"(?<![ -~\t])%TAG")
TAG_WORD = "!vault"
# A run of exclamation marks and blanks, which is taken once, and the word behind it.
RUN = re.compile(r"([!<\s]+)([\w-]*)")
# No letter precedes the `!`, as in `So far! Vault`.
BEGIN = re.compile(r"(?<![^\W\d_])!")
# A tag, and what precedes the text of a scalar besides: anchor, comments.
TAG = re.compile(rb"(![^ \t\r\n]*)(?:[ \t\r\n]|&[-\w]*|(?<=[ \t\r\n])#[^\r\n]*)*")
# What may follow a text without quotes in its line.
REST = re.compile(rb"[ \t,\]}]*(?:[\r\n]|\Z)")
# The tags of YAML and Ansible that encrypt nothing.
YAMLS_TAG, UNSAFE_TAG = "tag:yaml.org,2002:", "!unsafe"

HAS_DIRECTIVE = "line {}: `%TAG` may make `!vault` another tag; change this file with another editor"
NO_VALUE = (
    "line {}: this is new and looks like `!vault`, but is no tag of a value, so what follows would stay in plaintext; "
    "write `NAME: !vault TEXT` to encrypt, leave out the `!` in a comment or a string, or add the line with another "
    "editor"
)
CUT_SHORT = "line {}: only a part of the text after `!vault` would be encrypted; put it in quotes"


def refuse_directive(data: bytes) -> None:
    """Refuses a text with a line that begins with `%TAG`."""
    found = DIRECTIVE.search(data)
    if found:
        raise Refused(HAS_DIRECTIVE.format(data.count(b"\n", 0, found.start()) + 1))


def check_typed_tags(shown: Iterable[ParsedYaml], saved: ParsedYaml) -> None:
    """Refuses a saved text if something in its new lines looks like the tag of a value and is none, or is that of only
    a part of what is typed after it. A line that one of the sides already had so is no new one, whatever its margin."""
    known = Counter(line.strip() for side in shown for _, line, _ in _find_faults(side))
    for number, line, why in _find_faults(saved):
        known[line.strip()] -= 1
        if known[line.strip()] < 0:
            raise Refused(why.format(number))


def _find_faults(saved: ParsedYaml) -> Iterator[tuple[int, bytes, str]]:
    """The number and content of each line with something that looks like a tag, and what is wrong with it."""
    values = [value for value in saved.nodes if value.is_tagged]
    begins = [value.scalar_start for value in values]
    place = 0
    for number, line in enumerate(saved.data.splitlines(keepends=True), 1):
        for start in _find_lookalikes(line):
            begin = place + start
            tag = TAG.match(saved.data, begin)
            assert tag
            before = bisect_right(begins, tag.end())
            value = values[before - 1] if before else None
            why = ""
            if value and value.scalar_start == tag.end():
                why = CUT_SHORT if _is_cut_short(saved.data, tag.end(1), value) else ""
            # The word may also be in a text that is encrypted. If that has no quotes, a comment may end it.
            elif not (value and value.style != PLAIN and value.scalar_start <= begin < value.end):
                why = NO_VALUE
            if why:
                yield number, line, why
                break
        place += len(line)


def _find_lookalikes(line: bytes) -> Iterator[int]:
    """Where in a line each thing that looks like the tag begins."""
    text = line.decode() if b"!" in line else ""
    for found in RUN.finditer(text):
        begin = BEGIN.search(text, found.start(), found.end(1))
        if begin and _is_like_tag("!" + found[2].lower().removesuffix("-encrypted")):
            yield len(text[: begin.start()].encode())


def _is_like_tag(word: str) -> bool:
    """Whether a word begins with the tag, or is the tag but for one character: that is missing, wrong or too many, or
    in another place."""
    # A word that is even longer stays too long without one.
    start = word[: len(TAG_WORD) + 2]
    return start.startswith(TAG_WORD) or not _drop_one(start).isdisjoint(_drop_one(TAG_WORD))


def _drop_one(word: str) -> set[str]:
    """The word, and what remains of it without each of its characters."""
    return {word, *(word[:place] + word[place + 1 :] for place in range(len(word)))}


def _is_cut_short(data: bytes, tag_end: int, value: Node) -> bool:
    """Whether YAML takes the beginning of a text without quotes for an anchor or a comment, or its end for something
    else."""
    if value.style != PLAIN or value.is_envelope:
        return False
    return data[tag_end : value.scalar_start].strip() != b"" or not REST.match(data, value.end)


def find_other_tags(shown: list[Node], saved: Iterable[Node]) -> list[Node]:
    """The new values in plaintext that may have been meant otherwise: with a tag that was not shown, or with a first
    word that is nearly the tag."""
    tags, texts = {value.tag for value in shown}, {value.text for value in shown}
    return [
        value
        for value in saved
        if value.tag not in tags and _has_other_tag(value) or value.text not in texts and _begins_like_tag(value)
    ]


def _has_other_tag(value: Node) -> bool:
    is_known = value.is_tagged or value.tag == UNSAFE_TAG or value.tag.startswith(YAMLS_TAG)
    return value.tag != "" and not is_known and (value.text.strip() != b"" or value.style == NO_SCALAR)


def _begins_like_tag(value: Node) -> bool:
    """Whether a text without quotes has nearly the tag as its first word."""
    words = value.text.split(maxsplit=1)
    return value.style == PLAIN and not value.tag and len(words) > 1 and _is_like_tag(words[0].decode())

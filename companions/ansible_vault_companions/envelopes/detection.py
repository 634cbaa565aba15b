"""Tells which files may have an envelope, and reads these whole."""

from __future__ import annotations

from ansible_vault_companions.envelopes.pointers import refuse_pointer
from ansible_vault_companions.files.reading import open_regular, read_parts, read_whole

# A file with an envelope has one of these words, whose length is at most OVERLAP and one.
WORDS = (b"ANSIBLE_VAULT", b"!vault", b"__ansible_vault", b"%TAG")
OVERLAP = max(map(len, WORDS)) - 1


def may_have_envelope(data: bytes) -> bool:
    """Whether the data may have an envelope. It may be a piece of a file."""
    # A generator would take longer than the search of most files.
    for word in WORDS:
        if word in data:
            return True
    return False


def read_envelope_file(path: str) -> bytes:
    """The content of a file with envelopes; of any other, only a part, which is not blank unless the whole is. It is
    searched in pieces, since it may be long, and no further than a vault reaches. Refuses a pointer of git-lfs."""
    text = before = b""
    with open_regular(path) as file:
        for piece in read_parts(file):
            if may_have_envelope(before[-OVERLAP:] + piece):
                return read_whole(file, path)
            text, before = text if text.strip() else piece, piece
    refuse_pointer(text)
    return text

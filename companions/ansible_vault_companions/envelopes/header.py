"""The grammar of an envelope: its header, its label, and whether it is whole."""

from __future__ import annotations

import binascii
import re

from ansible_vault_companions.limits import LONGEST_LABEL

# The first word of an envelope.
MAGIC = b"$ANSIBLE_VAULT"
# How a header begins.
HEADER = MAGIC + b";"
LINE_END = re.compile(rb"\r\n?|\n")
# What docs/formats.md says of a header. The tool ignores further fields, which may be plaintext.
VERSIONS = (b"1.1", b"1.2")
CIPHER = b"AES256"
# The label in a header, which is what is left of its field without blanks around it.
LABEL = re.compile(rb"[\x20-\x7e]{0,%d}" % LONGEST_LABEL)
# What an envelope without a label has.
DEFAULT_LABEL = "default"
MOST_FIELDS = 4
LONGEST_HEADER = 256
# The lengths of what the digits say, in bytes.
LONGEST_SALT = 256
TAG_LENGTH = 32
CIPHER_BLOCK = 16


def read_label(text: bytes) -> str | None:
    """The label of an envelope; the default one if its first line has none, and None if that line is not a header."""
    fields = _split_fields(text)
    return (fields[3].decode() or DEFAULT_LABEL) if fields else None


def is_whole_envelope(text: bytes) -> bool:
    """Whether a text is an envelope with a valid header and a salt, tag and ciphertext of the right form."""
    fields = _split_fields(text)
    if not (fields and text.startswith(MAGIC) and _read_first_line(text).count(b";") < MOST_FIELDS):
        return False
    if not (fields[1] in VERSIONS and fields[2] == CIPHER and LABEL.fullmatch(fields[3])):
        return False
    salt, tag, ciphertext = _read_digits(text)
    has_lengths = 0 < len(salt) <= LONGEST_SALT and len(tag) == TAG_LENGTH
    return has_lengths and len(ciphertext) > 0 and len(ciphertext) % CIPHER_BLOCK == 0


def measure_ciphertext(text: bytes) -> int:
    """How many bytes are encrypted in an envelope, with their padding. The number is 0 if its digits are damaged."""
    return len(_read_digits(text)[2])


def measure_padded(length: int) -> int:
    """How long a text of this length is with the padding that encryption adds, which is 1 to 16 bytes."""
    return length - length % CIPHER_BLOCK + CIPHER_BLOCK


def _read_digits(text: bytes) -> tuple[bytes, ...]:
    """The salt, tag and ciphertext; empty if the digits below the first line have another form."""
    digits = text[len(_read_first_line(text)) :].translate(None, b"\r\n")
    try:
        salt, tag, ciphertext = map(binascii.unhexlify, binascii.unhexlify(digits).split(b"\n", 2))
    except ValueError:
        return b"", b"", b""
    return salt, tag, ciphertext


def _read_first_line(text: bytes) -> bytes:
    """The first line, or a byte more than the longest header has."""
    return LINE_END.split(text[: LONGEST_HEADER + 1], 1)[0]


def _split_fields(text: bytes) -> list[bytes]:
    """The fields of the first line, of which the fourth may be empty; none if that line is not a header."""
    header = _read_first_line(text)
    fields = [field.strip() for field in header.split(b";")]
    return [*fields, b""] if len(fields) > 2 and len(header) <= LONGEST_HEADER and header.isascii() else []

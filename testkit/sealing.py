"""Envelopes by the rules of the format, from Python's hashlib and hmac and the AES of Debian's python3-cryptography."""

import functools
import hashlib
import hmac
from typing import NamedTuple

from cryptography.hazmat.primitives.ciphers import Cipher, algorithms, modes

MAGIC = b"$ANSIBLE_VAULT"
HEADER = MAGIC + b";1.1;AES256"
PASSWORD = b"password"
SALT = bytes(range(32))
TEXT = b"a text of more than two blocks\n----"


@functools.cache
def keys(password: bytes, salt: bytes) -> tuple[bytes, bytes, bytes]:
    """Return the cipher's key, the HMAC's key, and the initial counter block."""
    derived = hashlib.pbkdf2_hmac("sha256", password, salt, 10_000, 80)
    return derived[:32], derived[32:64], derived[64:]


def blocks_to_wrap(salt: bytes, bits: int) -> int:
    """Return how many blocks precede the one for which the last bits of the counter are all zero."""
    return (1 << bits) - int.from_bytes(keys(PASSWORD, salt)[2], "big") % (1 << bits)


def counter_mode(password: bytes, salt: bytes, data: bytes) -> bytes:
    key, _, counter = keys(password, salt)
    return Cipher(algorithms.AES(key), modes.CTR(counter)).encryptor().update(data)


def padded(plaintext: bytes) -> bytes:
    count = 16 - len(plaintext) % 16
    return plaintext + bytes([count]) * count


class Parts(NamedTuple):
    salt: bytes
    tag: bytes
    ciphertext: bytes


def enciphered(padded_text: bytes, password: bytes = PASSWORD, salt: bytes = SALT) -> Parts:
    """Return the parts of a vault with the right tag, whatever the padding."""
    ciphertext = counter_mode(password, salt, padded_text)
    return Parts(salt, hmac.digest(keys(password, salt)[1], ciphertext, "sha256"), ciphertext)


def inner_text(parts: Parts) -> bytes:
    return b"\n".join(part.hex().encode() for part in parts)


def lines_of(digits: bytes, width: int = 80, end: bytes = b"\n") -> bytes:
    return b"".join(digits[place : place + width] + end for place in range(0, len(digits), width))


def with_inner(inner: bytes, header: bytes = HEADER) -> bytes:
    """Return the envelope of an inner text."""
    return header + b"\n" + lines_of(inner.hex().encode())


def envelope(parts: Parts, header: bytes = HEADER) -> bytes:
    return with_inner(inner_text(parts), header)


PARTS = enciphered(padded(TEXT))
INNER = inner_text(PARTS)
DIGITS = INNER.hex().encode()
BODY = lines_of(DIGITS)
ENVELOPE = HEADER + b"\n" + BODY


def sealed(plaintext: bytes = TEXT, password: bytes = PASSWORD, salt: bytes = SALT, label: bytes = b"") -> bytes:
    header = MAGIC + b";1.2;AES256;" + label if label else HEADER
    return envelope(enciphered(padded(plaintext), password, salt), header)

"""Vaults for the tests, made without any code of the program: PBKDF2 and HMAC come from the standard
library, counter mode from the `openssl` command."""

import functools
import hashlib
import hmac
import subprocess
from typing import NamedTuple

MAGIC = b"$ANSIBLE_VAULT"
HEADER = MAGIC + b";1.1;AES256"

# The digits of an empty salt, a tag of 32 zero bytes and an empty ciphertext, and the envelope of these in format 1.1.
# The inner text is LF, 64 digits 0, LF.
BODY = b"0a" + b"30" * 39 + b"\n" + b"30" * 25 + b"0a" + b"\n"
ENVELOPE = HEADER + b"\n" + BODY

PLAINTEXT_LIMIT = 16_777_216
CIPHERTEXT_LIMIT = PLAINTEXT_LIMIT + 16
ENVELOPE_LIMIT = 6 * PLAINTEXT_LIMIT + 8_192

SALT = bytes(range(32))
# Key streams up to this length are cached.
CACHED_LENGTH = 1 << 13


def serialized(salt: bytes, tag: bytes, ciphertext: bytes, label: bytes = b"") -> bytes:
    """Return an envelope, in format 1.1 if there is no label."""
    header = MAGIC + b";1.2;AES256;" + label if label else HEADER
    inner = b"\n".join(part.hex().encode() for part in (salt, tag, ciphertext))
    digits = inner.hex().encode()
    lines = [digits[start : start + 80] + b"\n" for start in range(0, len(digits), 80)]
    return header + b"\n" + b"".join(lines)


def yaml_block(envelope: bytes, name: bytes = b"") -> bytes:
    first = name + b": !vault |\n" if name else b"!vault |\n"
    return first + b"".join(b" " * 10 + line for line in envelope.splitlines(keepends=True))


def padded(plaintext: bytes) -> bytes:
    count = 16 - len(plaintext) % 16
    return plaintext + bytes([count]) * count


class Keys(NamedTuple):
    cipher_key: bytes
    tag_key: bytes
    counter: bytes


@functools.lru_cache(maxsize=4096)
def keys(password: bytes, salt: bytes) -> Keys:
    """Derive the keys of 32 bytes each, and the first counter block."""
    derived = hashlib.pbkdf2_hmac("sha256", password, salt, 10_000, 80)
    return Keys(derived[:32], derived[32:64], derived[64:])


def aes_ctr(key: bytes, counter: bytes, data: bytes) -> bytes:
    command = ["openssl", "enc", "-aes-256-ctr", "-K", key.hex(), "-iv", counter.hex()]
    return subprocess.run(command, input=data, capture_output=True, check=True).stdout


@functools.lru_cache(maxsize=1024)
def first_key_stream(key: bytes, counter: bytes) -> bytes:
    return aes_ctr(key, counter, bytes(CACHED_LENGTH))


def counter_mode(key: bytes, counter: bytes, data: bytes) -> bytes:
    if len(data) > CACHED_LENGTH:
        return aes_ctr(key, counter, data)
    stream = first_key_stream(key, counter)
    return bytes(byte ^ other for byte, other in zip(data, stream))


def tag_of(password: bytes, salt: bytes, ciphertext: bytes) -> bytes:
    return hmac.digest(keys(password, salt).tag_key, ciphertext, "sha256")


def apply_keystream(password: bytes, salt: bytes, data: bytes) -> bytes:
    """Encrypt or decrypt: in counter mode, both are the same."""
    derived = keys(password, salt)
    return counter_mode(derived.cipher_key, derived.counter, data)


def seal_padded(password: bytes, padded_plaintext: bytes, label: bytes = b"", salt: bytes = SALT) -> bytes:
    """Return an envelope, in format 1.1 if there is no label. The padding need not be valid."""
    ciphertext = apply_keystream(password, salt, padded_plaintext)
    tag = tag_of(password, salt, ciphertext)
    return serialized(salt, tag, ciphertext, label)


def seal(password: bytes, plaintext: bytes, label: bytes = b"", salt: bytes = SALT) -> bytes:
    return seal_padded(password, padded(plaintext), label, salt)

"""Vectors, and what must come of them."""

import hashlib
from collections.abc import Iterator
from dataclasses import dataclass
from typing import NamedTuple

from sealing import PASSWORD, TEXT


class Outcome(NamedTuple):
    """What must come of a vector, and the section of docs/formats.md that says so, with the number of a condition."""

    expect: str
    rule: str


# Sections of docs/formats.md.
SECRETS, KEYS, VALUES = "Labels and passwords", "Ciphers and keys", "Values in YAML and JSON"
NOT_VAULT = Outcome("input is not vault encrypted data", "Reading, 2")
LONG_HEADER = Outcome("vault header line is longer than 256 bytes", "Reading, 3")
BAD_HEADER = Outcome("vault header line is malformed", "Reading, 4")
BAD_VERSION = Outcome("vault format version is not supported", "Reading, 5")
BAD_CIPHER = Outcome("vault cipher is not supported", "Reading, 6")
BAD_BODY = Outcome("vault body is not hexadecimal", "Reading, 7")
BAD_PAYLOAD = Outcome("vault payload is malformed", "Reading, 8")
LONG_PASSWORD = Outcome("a password file is longer than 4096 bytes", SECRETS)
SCRIPT = Outcome("a password file is a script", SECRETS)
PASSWORD_IS_VAULT = Outcome("a password file is itself a vault", SECRETS)
NO_PASSWORD = Outcome("a password is empty", SECRETS)
NO_MATCH = Outcome("no secret decrypts this vault", SECRETS)
BAD_PADDING = Outcome("the padding of the decrypted data is wrong", KEYS)


def is_plain(text: bytes) -> bool:
    """Return whether a field can hold this text as it is."""
    return text.isascii() and text.decode().isprintable() and text.strip() == text


def success(rule: str) -> Outcome:
    return Outcome("success", rule)


@dataclass
class Vector:
    name: str
    outcome: Outcome
    comment: str
    data: bytes
    password: bytes = PASSWORD
    label: bytes = b""
    plaintext: bytes = TEXT
    form: str = ""

    def lines(self) -> Iterator[str]:
        expect, rule = self.outcome
        yield f"expect: {expect}"
        yield f"rule: {rule}"
        if is_plain(self.password):
            yield f"password: {self.password.decode()}"
        else:
            yield f"password-hex: {self.password.hex()}"
        if self.label:
            yield f"label: {self.label.decode()}"
        if self.form:
            yield f"form: {self.form}"
        if expect == "success":
            yield f"plaintext-sha256: {hashlib.sha256(self.plaintext).hexdigest()}"
        yield f"comment: {self.comment}"

    def file(self) -> bytes:
        return "".join(f"{line}\n" for line in self.lines()).encode() + b"\n" + self.data

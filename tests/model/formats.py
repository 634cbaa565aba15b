"""The rules of docs/formats.md, in its order and under its titles. A rule that refuses raises `Refused`.

`model.vaults` has the ciphers and keys, and the envelope as it is written.
"""

import re
import string
from typing import NamedTuple

from model.faults import Fault, Refused, refuse_if
from model.vaults import CIPHERTEXT_LIMIT, ENVELOPE_LIMIT, MAGIC, apply_keystream, padded, seal, tag_of

# Limits

HEADER_LIMIT = 256
SALT_READ_LIMIT = 256
SALT_LENGTH = 32
SALT_TEXT_LIMIT = 64
LABEL_LIMIT = 128
SECRET_LIMIT = 4_096
SECRETS_LIMIT = 16

TAG_LENGTH = 32
WHITESPACE = b"\t\n\x0b\x0c\r "
DEFAULT_LABEL = "default"


class Secret(NamedTuple):
    label: str
    password: bytes


# Ciphers and keys


def remove_padding(padded_text: bytes) -> bytes:
    """Return the one plaintext that has this padded text."""
    for count in range(1, 17):
        plaintext = padded_text[:-count]
        if padded(plaintext) == padded_text:
            return plaintext
    raise Refused(Fault.BAD_PADDING)


# Envelope


def seal_plaintext(secret: Secret, salt: bytes, plaintext: bytes) -> bytes:
    refuse_if(plaintext.startswith(MAGIC), Fault.ALREADY_VAULT)
    label = "" if secret.label == DEFAULT_LABEL else secret.label
    return seal(secret.password, plaintext, label.encode(), salt)


# Reading


class Envelope(NamedTuple):
    label: str
    salt: bytes
    tag: bytes
    ciphertext: bytes


def decode_digits(digits: bytes) -> bytes | None:
    """Decode pairs of digits, and return None for anything else. `bytes.fromhex` alone would skip spaces."""
    if len(digits) % 2 == 1:
        return None
    if digits.translate(None, string.hexdigits.encode()) != b"":
        return None
    return bytes.fromhex(digits.decode())


def read_envelope(data: bytes) -> Envelope:
    """Check the nine conditions, each of which is a comment."""
    # 1. The length.
    refuse_if(len(data) > ENVELOPE_LIMIT, Fault.TOO_LONG)
    # 2. The first bytes.
    refuse_if(not data.startswith(MAGIC), Fault.NOT_VAULT)
    # 3. The header line.
    header = re.split(rb"[\r\n]", data, maxsplit=1)[0]
    refuse_if(len(header) > HEADER_LIMIT, Fault.HEADER_TOO_LONG)
    # 4. Its fields.
    refuse_if(not header.isascii(), Fault.BAD_HEADER)
    fields = [field.strip(WHITESPACE).decode() for field in header.split(b";")]
    refuse_if(len(fields) < 3, Fault.BAD_HEADER)
    # Of the first field, only the first bytes count. Any after the label are ignored.
    _, version, cipher, label, *_ = [*fields, ""]
    label = label or DEFAULT_LABEL
    refuse_if(not is_label(label), Fault.BAD_HEADER)
    # 5. The version.
    refuse_if(version not in ("1.1", "1.2"), Fault.BAD_VERSION)
    # 6. The cipher.
    refuse_if(cipher != "AES256", Fault.BAD_CIPHER)
    # 7. The digits below.
    inner = decode_digits(data[len(header) :].translate(None, b"\r\n"))
    if inner is None:
        raise Refused(Fault.BAD_HEX)
    # 8. The inner text.
    # The ciphertext is all that follows the second line.
    lines = inner.split(b"\n", maxsplit=2)
    refuse_if(len(lines) < 3, Fault.BAD_PAYLOAD)
    salt, tag, ciphertext = (decode_digits(digits) for digits in lines)
    if salt is None or tag is None or ciphertext is None:
        raise Refused(Fault.BAD_PAYLOAD)
    refuse_if(len(salt) > SALT_READ_LIMIT, Fault.BAD_PAYLOAD)
    refuse_if(len(tag) != TAG_LENGTH, Fault.BAD_PAYLOAD)
    # 9. The length of the ciphertext.
    refuse_if(len(ciphertext) > CIPHERTEXT_LIMIT, Fault.CIPHER_TOO_LONG)
    return Envelope(label, salt, tag, ciphertext)


# Labels and passwords


def is_label(text: str) -> bool:
    if not 1 <= len(text) <= LABEL_LIMIT:
        return False
    if any(character == ";" or not " " <= character <= "~" for character in text):
        return False
    return not text.startswith(" ") and not text.endswith(" ")


def password_in(content: bytes) -> bytes:
    """Return the password in a password file."""
    refuse_if(len(content) > SECRET_LIMIT, Fault.SECRET_TOO_LONG)
    refuse_if(content.startswith(b"#!"), Fault.SECRET_IS_SCRIPT)
    refuse_if(content.startswith(MAGIC), Fault.SECRET_IS_VAULT)
    password = content.strip(WHITESPACE)
    refuse_if(password == b"", Fault.SECRET_EMPTY)
    return password


def split_vault_id(text: str) -> tuple[str, str]:
    """Return the label and the source in the value of `--vault-id`."""
    label, at, source = text.partition("@")
    if at == "":
        label, source = "", text
    if label == "":
        label = DEFAULT_LABEL
    refuse_if(not is_label(label), Fault.BAD_LABEL)
    refuse_if(source == "prompt", Fault.PROMPT_SOURCE)
    return label, source


def decrypt_envelope(secrets: list[Secret], is_label_required: bool, data: bytes) -> bytes:
    """Try the secrets with the envelope's label first, and then the others, unless the label is required."""
    envelope = read_envelope(data)
    tried = [secret for secret in secrets if secret.label == envelope.label]
    if not is_label_required:
        tried += [secret for secret in secrets if secret.label != envelope.label]
    for secret in tried:
        if tag_of(secret.password, envelope.salt, envelope.ciphertext) == envelope.tag:
            return remove_padding(apply_keystream(secret.password, envelope.salt, envelope.ciphertext))
    raise Refused(Fault.NO_SECRET_FITS)


def choose_secret(secrets: list[Secret], label: str | None) -> Secret:
    """Return the secret to encrypt with. `label` is that of `--encrypt-vault-id`."""
    refuse_if(not secrets, Fault.NO_ENCRYPT_SECRET)
    if label is None:
        refuse_if(len(secrets) > 1, Fault.MANY_ENCRYPT_SECRETS)
        return secrets[0]
    fitting = [secret for secret in secrets if secret.label == label]
    refuse_if(not fitting, Fault.UNKNOWN_ENCRYPT_ID)
    return fitting[0]

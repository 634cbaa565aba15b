"""Vectors of what a reader computes: tag, padding, counter; and of salts, passwords and plaintexts."""

import hashlib
import hmac
import unicodedata
from collections.abc import Iterator

import outcomes
from outcomes import Vector, success
from sealing import (
    ENVELOPE,
    PARTS,
    PASSWORD,
    SALT,
    TEXT,
    Parts,
    blocks_to_wrap,
    enciphered,
    envelope,
    keys,
    padded,
    sealed,
)


def tags() -> Iterator[Vector]:
    cipher_key, tag_key, _ = keys(PASSWORD, SALT)
    salt, tag, ciphertext = PARTS
    wrong = {
        f"byte-{place:02}": (f"byte {place} differs in its lowest bit", flipped(tag, place)) for place in range(32)
    }
    wrong |= {
        "of-cipher-key": ("made with the cipher's key", hmac.digest(cipher_key, ciphertext, "sha256")),
        "of-plaintext": ("made of the plaintext", hmac.digest(tag_key, TEXT, "sha256")),
        "of-padded-plaintext": ("made of the padded plaintext", hmac.digest(tag_key, padded(TEXT), "sha256")),
        "of-digits": ("made of the ciphertext's digits", hmac.digest(tag_key, ciphertext.hex().encode(), "sha256")),
        "of-salt-too": ("made of salt and ciphertext", hmac.digest(tag_key, salt + ciphertext, "sha256")),
        "of-sha512": ("the first half of an HMAC with SHA-512", hmac.digest(tag_key, ciphertext, "sha512")[:32]),
        "without-key": ("a hash without a key", hashlib.sha256(ciphertext).digest()),
        "first-half": ("only the first half is right", tag[:16] + bytes(16)),
        "second-half": ("only the second half is right", bytes(16) + tag[16:]),
        "zeros": ("zeros", bytes(32)),
    }
    for name, (comment, value) in wrong.items():
        yield Vector(f"tag-{name}", outcomes.NO_MATCH, f"the tag: {comment}", envelope(Parts(salt, value, ciphertext)))


def flipped(text: bytes, place: int) -> bytes:
    return text[:place] + bytes([text[place] ^ 1]) + text[place + 1 :]


def damages() -> Iterator[Vector]:
    salt, tag, ciphertext = PARTS
    damaged = {
        "first-bit": ("the ciphertext's first byte differs", Parts(salt, tag, flipped(ciphertext, 0))),
        "last-bit": ("the ciphertext's last byte differs", Parts(salt, tag, flipped(ciphertext, len(ciphertext) - 1))),
        "cut-by-byte": ("the ciphertext lacks a byte", Parts(salt, tag, ciphertext[:-1])),
        "cut-by-block": ("the ciphertext lacks a block", Parts(salt, tag, ciphertext[:-16])),
        "longer": ("a byte more follows the ciphertext", Parts(salt, tag, ciphertext + bytes(1))),
        "empty": ("the ciphertext is missing", Parts(salt, tag, b"")),
        "salt-bit": ("the salt's last byte differs", Parts(flipped(salt, 31), tag, ciphertext)),
        "salt-longer": ("a byte 00 more follows the salt", Parts(salt + bytes(1), tag, ciphertext)),
        "exchanged": ("salt and tag are exchanged", Parts(tag, salt, ciphertext)),
    }
    for name, (comment, parts) in damaged.items():
        yield Vector(f"tag-other-{name}", outcomes.NO_MATCH, f"the tag is of another text: {comment}", envelope(parts))


def paddings() -> Iterator[Vector]:
    for count in range(1, 17):
        text = TEXT[: 32 - count]
        comment = f"{count} bytes of padding"
        yield Vector(f"padding-{count:02}", success(outcomes.KEYS), comment, sealed(text), plaintext=text)
    texts = {
        f"first-of-{count}": (
            f"the first of {count} bytes of padding differs",
            TEXT[: 32 - count] + flipped(bytes([count]) * count, 0),
        )
        for count in (2, 3, 4, 8, 9, 15, 16)
    }
    texts |= {
        "00": ("the last byte is 00", TEXT[:31] + b"\x00"),
        "17-times-11": ("17 bytes 11", TEXT[:15] + b"\x11" * 17),
        "32-times-20": ("two blocks of padding", b"\x20" * 32),
        "middle": ("a byte in the middle of the padding differs", TEXT[:24] + flipped(b"\x08" * 8, 4)),
        "zeros-and-count": ("zeros and their number, as in ANSI X9.23", TEXT[:24] + bytes(7) + b"\x08"),
        "80-and-zeros": ("80 and zeros, as in ISO/IEC 7816-4", TEXT[:24] + b"\x80" + bytes(7)),
        "none": ("whole blocks of text without padding", TEXT[:32]),
        "no-text": ("an empty ciphertext", b""),
        "1-byte": ("a ciphertext of 1 byte", b"\x01"),
        "15-bytes": ("a ciphertext of 15 bytes", b"\x01" * 15),
        "17-bytes": ("a ciphertext of 17 bytes", TEXT[:16] + b"\x01"),
    }
    for name, (comment, text) in texts.items():
        comment = f"under a right tag: {comment}"
        yield Vector(f"padding-bad-{name}", outcomes.BAD_PADDING, comment, envelope(enciphered(text)))


def salts() -> Iterator[Vector]:
    made = {f"{size}-bytes": bytes(range(size)) for size in (0, 1, 16, 33, 51, 52, 64, 65, 115, 116, 256)}
    made |= {"zeros": bytes(32), "ff": b"\xff" * 32, "line-feeds": b"\n" * 32, "blanks": b" \t\r\n" * 8}
    for name, salt in made.items():
        yield Vector(f"salt-{name}", success("Limits"), f"a salt: {name.replace('-', ' ')}", sealed(salt=salt))
    yield Vector("salt-257-bytes", outcomes.BAD_PAYLOAD, "the salt is longer than its limit", sealed(salt=bytes(257)))


def passwords() -> Iterator[Vector]:
    umlaut = "schlüssel"
    for name, form in {"lf": b"%b\n", "cr-lf": b"%b\r\n", "blanks-around": b"\n\t\v\f\r %b \r\f\v\t\n"}.items():
        comment = "whitespace at both ends of the file is not part of the password"
        yield Vector(f"password-and-{name}", success(outcomes.SECRETS), comment, ENVELOPE, form % PASSWORD)
    made = {
        "inner-spaces": b"a  b",
        "two-lines": b"first\r\nsecond",
        "1c-and-1f": b"\x1cpass\x1f",
        "zero-bytes": b"\0pass\0word\0",
        "not-utf-8": b"\xff\xfe\x80",
        "no-break-spaces": b"\xc2\xa0pass\xc2\xa0",
        "utf-8": umlaut.encode(),
        "latin-1": umlaut.encode("latin-1"),
        "byte-order-mark": b"\xef\xbb\xbfpass",
        "64-bytes": b"a" * 64,
        "65-bytes": b"a" * 65,
        "4096-bytes": b"0123456789abcdef" * 256,
    }
    for name, password in made.items():
        comment = f"a password: {name.replace('-', ' ')}"
        yield Vector(f"password-{name}", success(outcomes.SECRETS), comment, sealed(password=password), password)
    comment = "HMAC pads a short key with zeros"
    yield Vector("password-and-zero-byte", success(outcomes.KEYS), comment, ENVELOPE, PASSWORD + b"\0")
    comment = "HMAC replaces a key of more than 64 bytes with its hash"
    digest = hashlib.sha256(b"a" * 65).digest()
    yield Vector("password-hash", success(outcomes.KEYS), comment, sealed(password=b"a" * 65), digest)
    comment = "only a file that begins with `#!` is a script"
    yield Vector("password-space-and-script", success(outcomes.SECRETS), comment, sealed(password=b"#!/x"), b" #!/x")


def refused_passwords() -> Iterator[Vector]:
    decomposed = unicodedata.normalize("NFD", "schlüssel").encode()
    other = {
        "upper-case": ("the case of letters counts", PASSWORD, b"Password"),
        "inner-space": ("a space within it counts", PASSWORD, b"pass word"),
        "decomposed": ("its characters are not normalized", "schlüssel".encode(), decomposed),
        "newline": ("the vault is under a password with a line feed", PASSWORD + b"\n", PASSWORD + b"\n"),
    }
    for name, (comment, right, content) in other.items():
        yield Vector(f"password-other-{name}", outcomes.NO_MATCH, comment, sealed(password=right), content)
    files = {
        "4097-bytes": (outcomes.LONG_PASSWORD, PASSWORD, PASSWORD.ljust(4097, b"\n")),
        "empty": (outcomes.NO_PASSWORD, b"", b""),
        "of-blanks": (outcomes.NO_PASSWORD, b"", b" \t\r\n\v\f"),
        "script": (outcomes.SCRIPT, b"#!/x", b"#!/x\n"),
        "vault": (outcomes.PASSWORD_IS_VAULT, ENVELOPE.strip(), ENVELOPE),
    }
    for name, (outcome, right, content) in files.items():
        yield Vector(f"password-file-{name}", outcome, outcome.expect, sealed(password=right), content)


def plaintexts() -> Iterator[Vector]:
    texts = {
        "empty": b"",
        "every-byte": bytes(range(256)),
        "zeros": bytes(48),
        "like-padding": b"\x10" * 16,
        "ends-like-padding": TEXT[:15] + b"\x01",
        "vault": ENVELOPE,
        "4096-bytes": b"0123456789abcde\n" * 256,
    }
    for name, text in texts.items():
        comment = f"a plaintext: {name.replace('-', ' ')}"
        yield Vector(f"plaintext-{name}", success("Envelope"), comment, sealed(text), plaintext=text)


def counters() -> Iterator[Vector]:
    """The salts come from a search: after few blocks, the last bits of their counters overflow."""
    for bits, salt in {8: b"13", 16: b"27392", 24: b"29477", 32: b"1492"}.items():
        blocks = blocks_to_wrap(salt, bits)
        text = b"".join(b"block %9d\n" % number for number in range(blocks + 2))
        comment = f"the last {bits} bits of the counter are zero for block {blocks}, counted from 0"
        yield Vector(f"counter-{bits}-bits", success(outcomes.KEYS), comment, sealed(text, salt=salt), plaintext=text)


def vectors() -> Iterator[Vector]:
    for kind in (tags, damages, paddings, salts, passwords, refused_passwords, plaintexts, counters):
        yield from kind()

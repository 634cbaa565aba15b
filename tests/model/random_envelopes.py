"""Random plaintexts and envelopes: intact ones in several layouts, and damaged ones.

The testkit has an envelope for each thing that can be wrong; here, bytes anywhere are. `hostile.py` has texts at the
limit of lengths, and `with_strace.py` above it.
"""

from random import Random

from model.vaults import ENVELOPE, HEADER, MAGIC, seal, seal_padded

SIZES = [0, 1, 2, 14, 15, 16, 17, 31, 32, 33, 47, 48, 49, 63, 64, 65, 255, 256, 257, 1_000]
LARGE_SIZES = [4_079, 4_080, 4_095, 4_096, 4_097, 65_519, 65_520, 65_535, 65_536, 65_537]
UNITS = [b"a", b"key: value\n", b"\x00", b"\x10", b"\xff\x00\n\r", bytes(range(256))]
STARTS = [MAGIC, MAGIC[:-1], MAGIC + b"X", ENVELOPE, b" " + ENVELOPE, b"\n" + MAGIC, MAGIC.lower()]
SALTS = [bytes(32), bytes(range(32)), b"", b"s", b"\n" * 8, bytes(range(64)), bytes(256)]
WIDTHS = [1, 2, 3, 64, 79, 80, 81, 160, 1_000_000]
LINE_ENDS = [b"\n", b"\r\n", b"\r", b"\n\n", b"\n\r"]
HEADERS = [b"%b;1.1;AES256;", b"%b;1.2;AES256", b"%b ; 1.1\t;\x0bAES256 ;default", b"%b;1.2;AES256;\t;more"]
BAD_ENDS = [b"", b"\x00", b"\x11", b"\x02\x03\x03", b"\x01\x02", b"\x10" * 15, b"\x10" * 16, b"\x11" * 17]
OTHERS = [b"", ENVELOPE, HEADER, MAGIC, b"key: value\n", b"\x80" * 40]


def repeated(random: Random, size: int) -> bytes:
    unit = random.choice(UNITS)
    return (unit * (size // len(unit) + 1))[:size]


def plaintext(random: Random) -> bytes:
    kind = random.random()
    if kind < 0.1:
        return random.choice(STARTS)
    if kind < 0.45:
        return random.randbytes(random.choice(SIZES))
    return repeated(random, random.choice(LARGE_SIZES if kind > 0.95 else SIZES))


def respelled(random: Random, envelope: bytes) -> bytes:
    """Return the same envelope in another layout."""
    header, _, body = envelope.partition(b"\n")
    if header == HEADER and random.random() < 0.5:
        header = random.choice(HEADERS) % MAGIC
    digits = body.replace(b"\n", b"")
    width = random.choice(WIDTHS)
    if random.random() < 0.4:
        digits = in_either_case(random, digits)
    lines = [digits[start : start + width] for start in range(0, len(digits), width)]
    return header + b"".join(random.choice(LINE_ENDS) + line for line in lines) + random.choice([b"", *LINE_ENDS])


def in_either_case(random: Random, digits: bytes) -> bytes:
    """Return hexadecimal digits in which any letter may be a capital."""
    return bytes(random.choice((digit, digit ^ 0x20)) if digit >= ord("A") else digit for digit in digits)


def damaged(random: Random, envelope: bytes) -> bytes:
    """Change, remove, insert or repeat bytes at one place, mostly one byte somewhere within the envelope."""
    start = random.choice([0, *[random.randrange(len(envelope))] * 8, len(envelope)])
    end = random.choice([start, *[start + 1] * 4, random.randrange(len(envelope)), len(envelope)])
    # The first of these bytes with another bit, if there is one.
    flipped = bytes(byte ^ 1 << random.randrange(8) for byte in envelope[start : start + 1])
    other = bytes([random.choice(b"0123456789abcdefAFgG \n\r;$\x00\x7f\x80\xff")])
    return envelope[:start] + random.choice([b"", flipped, other]) + envelope[end:]


def envelope(random: Random, password: bytes, label: bytes) -> bytes:
    """Return an envelope, usually one that can be decrypted. `label` is empty for format 1.1."""
    salt = random.choice(SALTS)
    kind = random.random()
    size = random.choice(SIZES)
    if kind < 0.02:
        return random.choice(OTHERS)
    if kind < 0.12:
        badly_padded = repeated(random, size) + random.choice(BAD_ENDS)
        return seal_padded(password, badly_padded, label, salt)
    if kind < 0.45:
        return damaged(random, respelled(random, seal(password, repeated(random, size), label, salt)))
    intact = seal(password, plaintext(random), label, salt)
    return intact if kind < 0.65 else respelled(random, intact)

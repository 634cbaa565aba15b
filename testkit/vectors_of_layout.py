"""Vectors of what a reader parses: header line, label, body, inner text."""

from collections.abc import Iterator

import outcomes
from outcomes import Vector, success
from sealing import BODY, DIGITS, ENVELOPE, HEADER, INNER, MAGIC, PARTS, envelope, lines_of, with_inner

BLANKS = {"tab": b"\t", "vertical-tab": b"\v", "form-feed": b"\f", "space": b" "}
READ = success("Reading, 4")
# Header lines, with what must come of them and what they show.
HEADER_LINES = {
    "1.1": (READ, "format 1.1 without a label", HEADER),
    "1.2-without-label": (READ, "format 1.2 without a label", MAGIC + b";1.2;AES256"),
    "several-blanks": (READ, "several blanks around fields", MAGIC + b"; \t1.1\f ;\v\vAES256 \t "),
    "text-after-magic": (success("Reading, 2"), "the first field begins with the magic", MAGIC + b"X 2\x01;1.1;AES256"),
    "later-fields": (READ, "fields after the fourth are ignored", HEADER + b";;;\x01;a\tb;" + MAGIC),
    "magic-cut": (outcomes.NOT_VAULT, "the last byte of the magic is missing", MAGIC[:-1]),
    "magic-lower-case": (outcomes.NOT_VAULT, "the magic is lower case", MAGIC.lower() + b";1.1;AES256"),
    "space-before-magic": (outcomes.NOT_VAULT, "a space comes first", b" " + HEADER),
    "line-before-magic": (outcomes.NOT_VAULT, "an empty line comes first", b"\n" + HEADER),
    "byte-order-mark": (outcomes.NOT_VAULT, "U+FEFF comes first", b"\xef\xbb\xbf" + HEADER),
    "one-field": (outcomes.BAD_HEADER, "version and cipher are missing", MAGIC),
    "two-fields": (outcomes.BAD_HEADER, "the cipher is missing", MAGIC + b";1.1"),
    "not-ascii-first-field": (outcomes.BAD_HEADER, "also after the magic", MAGIC + b"\xc3\xa9;1.1;AES256"),
    "not-ascii-version": (outcomes.BAD_HEADER, "a0 is not whitespace", MAGIC + b";1.1\xa0;AES256"),
    "not-ascii-later-field": (outcomes.BAD_HEADER, "also in a field that is ignored", HEADER + b";;;\xff"),
    "next-line": (outcomes.BAD_HEADER, "U+0085 ends no line", HEADER + b"\xc2\x85" + DIGITS[:40]),
    "vertical-tab": (outcomes.BAD_CIPHER, "0b ends no line", HEADER + b"\v" + DIGITS[:40]),
}


def headers() -> Iterator[Vector]:
    lines = dict(HEADER_LINES)
    for name, byte in BLANKS.items():
        line = b"%b;%b1.1%b;%bAES256%b" % (MAGIC + byte, *[byte] * 4)
        lines[f"{name}s-around-fields"] = (READ, f"a {name.replace('-', ' ')} before and after each field", line)
    for byte in (b"\x00", b"\x1c", b"\x1f"):
        line = MAGIC + b";%b1.1;AES256" % byte
        lines[f"byte-{byte.hex()}-around-field"] = (outcomes.BAD_VERSION, f"{byte.hex()} is not whitespace", line)
    for version in ("1.0", "1.3", "1", "1.10", "1.1x", "1 .1", ""):
        line = b"%b;%b;AES256" % (MAGIC, version.encode())
        name = f"version-{version.replace(' ', '_') or 'empty'}"
        lines[name] = (outcomes.BAD_VERSION, f"the version is `{version}`", line)
    for cipher in ("AES", "aes256", "AES256X", "AES 256"):
        line = b"%b;1.1;%b" % (MAGIC, cipher.encode())
        lines[f"cipher-{cipher.replace(' ', '_')}"] = (outcomes.BAD_CIPHER, f"the cipher is `{cipher}`", line)
    for name, (outcome, comment, line) in lines.items():
        yield Vector(f"header-{name}", outcome, comment, line + b"\n" + BODY)


def header_ends() -> Iterator[Vector]:
    yield Vector("header-empty-file", outcomes.NOT_VAULT, "no byte at all", b"")
    yield Vector("header-alone", outcomes.BAD_PAYLOAD, "a header line without a line end, and nothing else", HEADER)
    for name, end in {"cr": b"\r", "cr-lf": b"\r\n", "empty-lines": b"\n\n\r\n\r\r"}.items():
        comment = f"{name.replace('-', ' ')} after the header line"
        yield Vector(f"header-end-{name}", success("Reading, 3"), comment, HEADER + end + BODY)
    fillings = {"later-field": HEADER + b";;" + b"x" * 257, "spaces": HEADER + b" " * 257}
    for count, outcome in {256: success("Limits"), 257: outcomes.LONG_HEADER}.items():
        for name, line in fillings.items():
            comment = f"a header line of {count} bytes, filled with {name.replace('-', ' ')}"
            yield Vector(f"header-{count}-bytes-{name}", outcome, comment, line[:count] + b"\n" + BODY)


def header_orders() -> Iterator[Vector]:
    """Two faults, of which the first in the order of the conditions is reported."""
    orders = {
        "length-without-end": (outcomes.LONG_HEADER, (HEADER + b";;").ljust(257, b"x")),
        "length-before-ascii": (outcomes.LONG_HEADER, HEADER.ljust(257, b"\xff") + b"\n" + BODY),
        "label-before-version": (outcomes.BAD_HEADER, MAGIC + b";3;AES256;\x01\n" + BODY),
        "version-before-cipher": (outcomes.BAD_VERSION, MAGIC + b";1.0;AES\n" + BODY),
        "cipher-before-body": (outcomes.BAD_CIPHER, MAGIC + b";1.1;AES\n" + BODY[:-2] + b"\n"),
        "body-before-payload": (outcomes.BAD_BODY, HEADER + b"\n0a0a0\n"),
    }
    for name, (outcome, data) in orders.items():
        yield Vector(f"header-order-{name}", outcome, "two faults: the first condition decides", data)


def labels() -> Iterator[Vector]:
    every = bytes(byte for byte in range(0x21, 0x7F) if byte not in b";@")
    lawful = {
        "dev": (b"dev", b"dev"),
        "128-bytes": (b"a" * 128, b"a" * 128),
        "printable": (every, every),
        "at-sign": (b"a@b", b"a@b"),
        "inner-space": (b"a  b", b"a  b"),
        "blanks-around": (b" \tdev\v\f", b"dev"),
        "default": (b"default", b""),
        "empty": (b"", b""),
        "blanks-alone": (b" \t ", b""),
    }
    for name, (field, label) in lawful.items():
        data = envelope(PARTS, MAGIC + b";1.2;AES256;" + field)
        comment = "a label is only a hint: the secret's may be another"
        yield Vector(f"label-{name}", success(outcomes.SECRETS), comment, data, label=label)
    comment = "in format 1.1, too, the fourth field is the label"
    yield Vector("label-in-1.1", READ, comment, envelope(PARTS, HEADER + b";dev"), label=b"dev")
    yield Vector("label-bad-in-1.1", outcomes.BAD_HEADER, comment, envelope(PARTS, HEADER + b";d\tv"))
    bad = {"129-bytes": b"a" * 129, "tab": b"a\tb", "not-ascii": "dév".encode(), "7f": b"a\x7f", "1c": b"\x1ca"}
    for name, label in bad.items():
        data = envelope(PARTS, MAGIC + b";1.2;AES256;" + label)
        comment = f"a label must not be this: {name.replace('-', ' ')}"
        yield Vector(f"label-bad-{name}", outcomes.BAD_HEADER, comment, data)


def bodies() -> Iterator[Vector]:
    half = len(DIGITS) // 2
    # The only letters are in the line feeds between the parts, which are `0a`.
    layouts = {
        "upper-case": lines_of(DIGITS.upper()),
        "mixed-case": lines_of(DIGITS.replace(b"0a", b"0A", 1)),
        **{f"lines-of-{width}": lines_of(DIGITS, width) for width in (1, 79, 81)},
        "one-line": DIGITS,
        "without-last-newline": BODY[:-1],
        "cr-lf": lines_of(DIGITS, end=b"\r\n"),
        "cr": lines_of(DIGITS, end=b"\r"),
        "mixed-ends": DIGITS[:3] + b"\r\n" + DIGITS[3:half] + b"\r" + DIGITS[half:] + b"\n",
        "empty-lines-between": lines_of(DIGITS, end=b"\n\n"),
        "empty-lines-before": b"\n\r\n" + BODY,
        "empty-lines-after": BODY + b"\n\r\n\n",
    }
    for name, body in layouts.items():
        yield Vector(f"body-{name}", success("Reading, 7"), name.replace("-", " "), HEADER + b"\n" + body)
    foreign = {"space": b" ", "tab": b"\t", "00": b"\0", "slash": b"/", "colon": b":", "at-sign": b"@", "b0": b"\xb0"}
    foreign |= {"backquote": b"`", "g": b"g", "upper-case-g": b"G", "fullwidth-digit": "１".encode()}
    for name, text in foreign.items():
        body = lines_of(DIGITS[:half] + text + DIGITS[half + len(text) :], 160)
        comment = f"a byte that is no digit: {name.replace('-', ' ')}"
        yield Vector(f"body-with-{name}", outcomes.BAD_BODY, comment, HEADER + b"\n" + body)


def other_bodies() -> Iterator[Vector]:
    bodies = {
        "odd": (outcomes.BAD_BODY, "the last digit is missing", DIGITS[:-1] + b"\n"),
        "digit-too-many": (outcomes.BAD_BODY, "one digit more at the end", BODY + b"0\n"),
        "trailing-spaces": (outcomes.BAD_BODY, "a space before each line end", lines_of(DIGITS, end=b" \n")),
        "last-space": (outcomes.BAD_BODY, "a space after the last line", BODY + b" "),
        "hex-prefix": (outcomes.BAD_BODY, "0x before the digits", b"0x" + BODY),
        "second-envelope": (outcomes.BAD_BODY, "another envelope follows", BODY + ENVELOPE),
        "raw": (outcomes.BAD_PAYLOAD, "the inner text in place of its digits", INNER),
        "empty": (outcomes.BAD_PAYLOAD, "no digits", b""),
        "line-ends-alone": (outcomes.BAD_PAYLOAD, "no digits, but line ends", b"\n\r\n"),
    }
    for name, (outcome, comment, body) in bodies.items():
        yield Vector(f"body-{name}", outcome, comment, HEADER + b"\n" + body)


def inner_texts() -> Iterator[Vector]:
    salt, tag, text = INNER.split(b"\n")
    cases = zip(INNER[::2], INNER.upper()[1::2] + b"\n")
    mixed = bytes(digit for pair in cases for digit in pair)[: len(INNER)]
    for name, inner in {"upper-case": INNER.upper(), "mixed-case": mixed}.items():
        comment = f"the digits of all three parts are {name.replace('-', ' ')}"
        yield Vector(f"inner-{name}", success("Reading, 8"), comment, with_inner(inner))
    inners = {
        "no-separator": ("no line feed", salt + tag + text),
        "one-separator": ("one line feed", salt + b"\n" + tag),
        "last-newline": ("a line feed at the end belongs to the ciphertext", INNER + b"\n"),
        "fourth-part": ("a fourth part", INNER + b"\n00"),
        "empty-part": ("an empty part between salt and tag", b"\n".join([salt, b"", tag, text])),
        "cr-lf": ("CR LF between the parts", INNER.replace(b"\n", b"\r\n")),
        "tag-empty": ("an empty tag", b"\n".join([salt, b"", text])),
        "tag-16-bytes": ("the first half of the tag", b"\n".join([salt, tag[:32], text])),
        "tag-31-bytes": ("the tag without its last byte", b"\n".join([salt, tag[:-2], text])),
        "tag-33-bytes": ("a byte more in the tag", b"\n".join([salt, tag + b"00", text])),
        "tag-with-g": ("a letter that is no digit in the tag", b"\n".join([salt, tag[:-1] + b"g", text])),
        "two-odd-parts": ("two odd parts, and an even sum", b"\n".join([salt + b"0", tag[:-1], text])),
    }
    for name, (start, part, end) in {
        "salt": (b"", salt, b"\n" + tag + b"\n" + text),
        "ciphertext": (salt + b"\n" + tag + b"\n", text, b""),
    }.items():
        inners[f"{name}-odd"] = (f"a digit is missing in the {name}", start + part[:-1] + end)
        inners[f"{name}-with-g"] = (f"a letter that is no digit in the {name}", start + b"g" + part[1:] + end)
        inners[f"{name}-with-spaces"] = (f"spaces within the {name}", start + part[:2] + b"  " + part[2:] + end)
        inners[f"{name}-and-blanks"] = (f"blanks after the {name}", start + part + b" \t" + end)
    for name, (comment, inner) in inners.items():
        yield Vector(f"inner-{name}", outcomes.BAD_PAYLOAD, comment, with_inner(inner))


def vectors() -> Iterator[Vector]:
    for kind in (headers, header_ends, header_orders, labels, bodies, other_bodies, inner_texts):
        yield from kind()

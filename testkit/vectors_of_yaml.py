"""Vectors of values in YAML and JSON: the value of the key `secret` is encrypted."""

from collections.abc import Iterator

import outcomes
from outcomes import Vector, success
from sealing import ENVELOPE, PARTS, SALT, Parts, enciphered, envelope, padded, sealed

KEY = b"secret: "
# The text between quotes, where YAML knows escapes; and on several lines, where it joins lines with spaces.
ESCAPED = ENVELOPE.replace(b"\n", b"\\n")
JOINED = ENVELOPE.strip().replace(b"\n", b"\n  ")
# Where it does so, an empty line stands for a line feed.
SPREAD = ENVELOPE.strip().replace(b"\n", b"\n\n  ")


def block(text: bytes = ENVELOPE, margin: int = 2, header: str = "|", before: bytes = KEY) -> bytes:
    lines = b"".join(b" " * margin + line for line in text.splitlines(keepends=True))
    return before + b"!vault " + header.encode() + b"\n" + lines


def read_values() -> dict[str, bytes]:
    return {
        "literal": block(),
        "literal-strip": block(header="|-"),
        "literal-keep": block(header="|+") + b"\n\n",
        "literal-4": block(margin=4, header="|4"),
        "literal-4-strip": block(margin=4, header="|4-"),
        "literal-keep-4": block(margin=4, header="|+4"),
        "margin": block(margin=1),
        "comment": block(header="|- # a comment"),
        "anchor": block(header="&a |"),
        "alias": block(before=b"other: &a ") + b"secret: *a\n",
        "verbatim-tag": block().replace(b"!vault", b"!<!vault>"),
        "other-tag": block().replace(b"!vault", b"!vault-encrypted"),
        "question-mark": block(before=b"? secret\n: "),
        "next-line": block(before=b"secret:\n "),
        "cr-lf": block().replace(b"\n", b"\r\n"),
        "without-last-newline": block()[:-1],
        "empty-lines-within": b"secret: !vault |\n  " + SPREAD + b"\n",
        "key-after": block() + block(before=b"other: "),
        "comments-around": b"# before\n---\n# then\n" + block() + b"# after\n",
        "byte-order-mark": b"\xef\xbb\xbf" + block(),
        "label": block(sealed(label=b"dev")),
        "double-quotes": b'secret: !vault "' + ESCAPED + b'"\n',
        "double-quotes-lines": b'secret: !vault "' + ENVELOPE.replace(b"\n", b"\\n\\\n  ") + b'"\n',
        "double-quotes-escapes": b'secret: !vault "\\x24\\u0041' + ESCAPED[2:] + b'"\n',
        "single-quotes": b"secret: !vault '" + SPREAD + b"'\n",
        "folded": b"secret: !vault >\n  " + SPREAD + b"\n",
        "plain": b"secret: !vault " + SPREAD + b"\n",
        "flow": b'{other: [1], secret: !vault "' + ESCAPED + b'"}\n',
        "json": b'{"secret": {"__ansible_vault": "' + ESCAPED + b'"}, "other": 1}\n',
        "json-escapes": b'{"secret":{"__ansible_vault":"\\u0024' + ESCAPED[1:] + b'"}}',
    }


def vectors() -> Iterator[Vector]:
    for name, data in read_values().items():
        comment = f"a value: {name.replace('-', ' ')}"
        yield Vector(f"yaml-{name}", success(outcomes.VALUES), comment, data, form="yaml")
    # An envelope whose one joined line is no longer than a header line may be.
    short = envelope(enciphered(padded(b""), salt=b""))
    refused = {
        "folded-lines": (outcomes.LONG_HEADER, "lines joined with spaces", block(header=">")),
        "folded-short": (outcomes.BAD_CIPHER, "a few lines joined with spaces", block(short, header=">")),
        "plain-lines": (outcomes.LONG_HEADER, "lines joined with spaces", b"secret: !vault " + JOINED + b"\n"),
        "quotes-lines": (outcomes.LONG_HEADER, "lines joined with spaces", b"secret: !vault '" + JOINED + b"'\n"),
        "plaintext": (outcomes.NOT_VAULT, "plaintext", b"secret: !vault plaintext\n"),
        "no-text": (outcomes.NOT_VAULT, "no text", b'secret: !vault ""\n'),
        "text-after": (outcomes.BAD_BODY, "text after the envelope", block(ENVELOPE + b"more\n")),
        "wrong-tag": (outcomes.NO_MATCH, "a tag of zeros", block(envelope(Parts(SALT, bytes(32), PARTS.ciphertext)))),
    }
    for name, (outcome, comment, data) in refused.items():
        yield Vector(f"yaml-{name}", outcome, f"a value: {comment}", data, form="yaml")

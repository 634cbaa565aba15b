"""One successful run of each command, with its output."""

from functools import partial
from typing import NamedTuple

import pytest

from lib.cases import TEXT, Cases, by_file, by_id
from model.options import OPTIONS
from model.vaults import seal, yaml_block

SALT_TEXT = b"a salt"
SALT_WORDS = ["--salt", SALT_TEXT.decode()]

COMMANDS = [*OPTIONS]
# Those with an option --output.
TO_OUTPUT = [each for each in COMMANDS if "--output" in OPTIONS[each]]
each_command = pytest.mark.parametrize("command", COMMANDS)
each_to_output = pytest.mark.parametrize("command", TO_OUTPUT)


class Sample(NamedTuple):
    words: list[str]
    stdin: bytes
    output: bytes


def sample_of(cases: Cases, command: str, text: bytes = TEXT) -> Sample:
    """Return a run of the command on this plaintext."""
    right, new = cases.file(b"right\n"), cases.file(b"new\n")
    given = by_file(right)
    vault, sealed = partial(seal, b"right", text), partial(seal, b"right", text, salt=SALT_TEXT)
    match command:
        case "encrypt":
            return Sample(["encrypt", *given, *SALT_WORDS], text, sealed())
        case "decrypt":
            return Sample(["decrypt", *given], vault(), text)
        case "view":
            return Sample(["view", *by_id(right, "dev")], vault(), text)
        case "rekey":
            words = ["rekey", *given, "--new-vault-id", f"prod@{new}", *SALT_WORDS]
            return Sample(words, vault(), seal(b"new", text, b"prod", SALT_TEXT))
    return Sample(["encrypt_string", *given, *SALT_WORDS, "--stdin-name", "k"], text, yaml_block(sealed(), b"k"))

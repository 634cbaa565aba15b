"""Command lines: help, the version, and invalid ones. Only messages of the parser contain words of the command line."""

import itertools
import os
import re
from collections.abc import Iterable

import pytest
from hypothesis import given, settings
from hypothesis import strategies as st

from lib.cases import Answer, Cases, answer_of
from lib.paths import version
from lib.processes import run
from lib.samples import COMMANDS
from lib.texts import NAMES, PROGRAM, help_path, stored_mistakes


def answers(cases: Cases, lines: Iterable[str]) -> dict[str, Answer]:
    return {line: answer_of(cases.done(line.split())) for line in lines}


@pytest.mark.parametrize("name", NAMES)
def test_helps(cases: Cases, name: str) -> None:
    """The whole help is printed, even if a mistake follows --help."""
    command = "" if name == PROGRAM else name
    lines = [f"{command} {options}" for options in ("--help", "-h", "--help --loud", "-h --version")]
    assert answers(cases, lines) == dict.fromkeys(lines, (0, help_path(name).read_bytes(), b""))


def test_versions(cases: Cases) -> None:
    lines = ("--version", "-V", "--version --loud", "-V --help", "-Vh")
    assert answers(cases, lines) == dict.fromkeys(lines, (0, f"ansible-vault {version()}\n".encode(), b""))


@pytest.mark.parametrize("name", NAMES)
def test_mistakes(cases: Cases, name: str) -> None:
    stored = stored_mistakes(name)
    assert answers(cases, stored) == {line: (2, b"", text.encode()) for line, text in stored.items()}


def test_not_utf8(cases: Cases) -> None:
    cases.run(["view", os.fsdecode(b"\xff")], status=2, err=b"error: an argument is not UTF-8\n")


# Control characters, zero-width spaces and joiners, separators, and characters that set the direction of text.
UNPRINTABLE = re.compile("[\0-\x1f\x7f-\x9f\u200b-\u200f\u2028-\u202e\u2066-\u2069]")
# All of them except 0, which no argument can contain.
CONTROLS = [*filter(UNPRINTABLE.match, map(chr, itertools.chain(range(1, 0xA0), range(0x200B, 0x206A))))]
# Their neighbours, and other characters that are shown unchanged.
PRINTABLE = " ~\xa0\xe9\u200a\u2010\u2027\u202f\u2065\u206a\U0001f600"
# Command lines with a word that the parser names in its message, in place of `{}`.
LINES = ["{}", "--{}", "-{}", "view --require-id-match={}"]
LINES += [f"{command} {rest}" for command in COMMANDS for rest in ("--{}", "--{}=x", "x {}", "-{}", "--vault-id{} y")]


def message_of(program: str, line: str, word: str) -> tuple[int, bytes, str]:
    done = run([program, *(each.format(word) for each in line.split())])
    return done.returncode, done.stdout, done.stderr.decode()


@pytest.mark.parametrize("line", LINES)
@settings(max_examples=40, deadline=None)
@given(word=st.text(st.sampled_from(CONTROLS) | st.sampled_from(PRINTABLE), min_size=1).map(lambda word: f"a{word}b"))
def test_in_words(program: str, line: str, word: str) -> None:
    """The message is the same as for the word with its unprintable characters escaped, and contains none."""
    assert len(CONTROLS) == 80
    escaped = UNPRINTABLE.sub(lambda found: f"\\u{{{ord(found[0]):x}}}", word)
    status, output, message = message_of(program, line, word)
    assert message_of(program, line, escaped) == (status, output, message), "the answer to the escaped word"
    assert status == 2 and output == b"", message
    assert not UNPRINTABLE.search(message.replace("\n", "")), "the message"

"""Texts that are typed at the terminal, to encrypt or decrypt them."""
from typing import NamedTuple

import pytest

from companion_cases import FOUND, TEXT, WITH, Place, sealed, texts
from companion_cases.terminal import ask
from lib.needs import needs_ansible

OLD, NEW = "--vault-password-file=../secrets/old", "--new-vault-password-file=../secrets/new"
READING = "Reading standard input. End it with Ctrl-D, or with Ctrl-D twice if the last line is not empty."
# As the terminal shows it.
READY = f"{READING}\r\n"
# Where the outputs go: both to the terminal, or one of them.
BOTH = "> /dev/tty 2>&1"
OUTPUT, ERRORS = "> /dev/tty", "> ../shown 2> /dev/tty"
END = b"\x04\x04"


class Typed(NamedTuple):
    """A command line that reads standard input, what is typed, and what follows it."""

    line: str
    typed: bytes
    follows: str


TYPED = [
    Typed(line=f"encrypt_string {OLD} --stdin-name q", typed=b"xyz", follows="q: !vault |\n"),
    Typed(line=f"encrypt_string {OLD} --stdin-name q", typed=b"one\nxyz", follows="q: !vault |\n"),
    Typed(line=f"encrypt_string {OLD} -", typed=b"xyz", follows="!vault |\n"),
    Typed(
        line=f"encrypt_string {OLD} -n r word --stdin-name q",
        typed=b"xyz",
        follows="# Value 1 is the variable q, from standard input.\n",
    ),
    Typed(line=f"encrypt {OLD}", typed=b"xyz", follows="$ANSIBLE_VAULT;1.1;AES256\n"),
    Typed(line=f"encrypt {OLD} -", typed=b"xyz", follows="$ANSIBLE_VAULT;1.1;AES256\n"),
    Typed(line=f"view {OLD}", typed=sealed("old")[:-1], follows=TEXT.decode()),
    Typed(line=f"rekey {OLD} {NEW}", typed=sealed("old")[:-1], follows="$ANSIBLE_VAULT;1.1;AES256\n"),
]


@pytest.mark.parametrize("line, typed, follows", TYPED, ids=range(len(TYPED)))
@pytest.mark.parametrize("end", [b"", b"\n"])
def test_lines(place: Place, line: str, typed: bytes, follows: str, end: bytes) -> None:
    """What follows a typed text begins a line of its own, so that no copy of it begins with a secret. The text is
    encrypted as it was typed."""
    words, text = ["sh", "-c", f"{WITH} {line} < /dev/tty {BOTH}"], typed + end
    session = ask(place, *words, answers=[(READY, text + (END[:1] if end else END))])
    after = session.shown.partition(f"{READING}\n")[2]
    assert (session.returncode, after.startswith(f"{typed.decode()}\n{follows}")) == (0, True), session
    if line.startswith("encrypt"):
        assert texts(FOUND.findall(session.shown.encode())[0], "old") == [text], session


@pytest.mark.parametrize("outputs", [OUTPUT, ERRORS])
def test_outputs(place: Place, outputs: str) -> None:
    """If only one of the outputs goes to the terminal, that is where the line ends, and a file gets the value alone."""
    line = f"{WITH} encrypt_string {OLD} --stdin-name q < /dev/tty {outputs}"
    question = READY if outputs == ERRORS else ""
    session = ask(place, "sh", "-c", line, answers=[(question, b"xyz" + END)])
    if outputs == ERRORS:
        assert (session.returncode, session.shown.endswith("xyz\n")) == (0, True), session
        value = (place.path / "shown").read_bytes()
        assert value.startswith(b"q: !vault |\n") and texts(value, "old") == [b"xyz"]
    else:
        assert (session.returncode, session.stderr) == (0, f"{WITH}: {READING}\n"), session
        assert "xyz\nq: !vault |\n" in session.shown, session


def test_several_strings(place: Place) -> None:
    """A note says which value is which: the typed string, standard input, and those of the command line."""
    line = f"printf second | {WITH} encrypt_string {OLD} third fourth -n r --prompt --stdin-name q"
    answers = [("Variable name (enter for no name): ", b"p\n"), ("String to encrypt (hidden): ", b"first\n")]
    session = ask(place, "sh", "-c", line, answers=answers)
    assert texts(session.stdout.encode(), "old") == [b"first", b"second", b"third", b"fourth"], session
    assert [line for line in session.stdout.splitlines() if "!vault" in line] == [
        "p: !vault |",
        "q: !vault |",
        "r: !vault |",
        "!vault |",
    ]
    notes = ["the variable p, from the prompt", "the variable q, from standard input"]
    notes += ["the variable r, from the command line", "a string without a name, from the command line"]
    assert session.stderr == "".join(f"# Value {number} is {note}.\n" for number, note in enumerate(notes, 1))


def test_as_ansible(place: Place) -> None:
    """Ansible's tool ends the line of a string, too."""
    line = f"{needs_ansible()} encrypt_string {OLD} --stdin-name q < /dev/tty {BOTH}"
    session = ask(place, "sh", "-c", line, answers=[("a newline)\r\n", b"xyz" + END)])
    assert "\nxyz\n" in session.shown and "\nq: !vault |\n" in session.shown, session

"""Asks for passwords and other texts at the terminal, or else on standard input if that has no other use.

The standard streams are for data. But if there is no terminal, a line of standard input is the answer, as with
Ansible's tool.
"""

from __future__ import annotations

import os
import termios
from io import FileIO
from select import select

from ansible_vault_companions.output import write_error, write_when_possible
from ansible_vault_companions.passwords.settings import ASK, PROMPT
from ansible_vault_companions.passwords.sources import NoAnswer, Purpose
from ansible_vault_companions.quoting import escape
from ansible_vault_companions.refusals import Refused

NO_TERMINAL = "there is no terminal on which to ask for"
FOR_DATA = ", and standard input is for data"
NO_LINE = ", and standard input has no line for `{}`"
# What is said of each kind of question if nobody answers it.
NO_PASSWORD = f"{NO_TERMINAL} the password{{}}; name a password file"
NO_STRING = f"{NO_TERMINAL} the string{{}}; give it as STRING"
NO_LABEL = f"{NO_TERMINAL} the label{{}}; choose it with --encrypt-vault-id"
DIFFER = "the two passwords differ; try again"
# The character that Ctrl-Z types when it sends no signal, and the value that disables a special key.
SUSPEND, NO_KEY = b"\x1a", b"\0"
# Ansible's prompts for decrypting, and those for encrypting.
TO_DECRYPT = {PROMPT: ["Vault password ({}): "], ASK: ["Vault password: "]}
TO_ENCRYPT = {
    PROMPT: ["New vault password ({}): ", "Confirm new vault password ({}): "],
    ASK: ["New Vault password: ", "Confirm New Vault password: "],
}


def ask_password(kind: str, label: str, purpose: Purpose) -> bytes:
    """The password that the user types: once to decrypt, twice to encrypt."""
    questions = (TO_ENCRYPT if purpose.encrypts else TO_DECRYPT)[kind]
    typed = [_ask_hidden_password(question.format(escape(label)), purpose) for question in questions]
    if len(set(typed)) > 1:
        raise Refused(DIFFER)
    return typed[0]


def confirm_password(kind: str, label: str, content: bytes, purpose: Purpose) -> bool:
    """Whether the user types a password again."""
    return _ask_hidden_password(TO_ENCRYPT[kind][-1].format(escape(label)), purpose) == content


def ask_string(is_hidden: bool, reads_lines: bool) -> bytes:
    """The string to encrypt, as the user types it."""
    question = "String to encrypt (hidden): " if is_hidden else "String to encrypt:"
    text = _ask(question, is_hidden, reads_lines, NO_STRING)
    if not text:
        raise Refused("you typed an empty string; try again")
    return text


def ask_name(reads_lines: bool) -> bytes:
    """The name of the string to encrypt; empty if it gets none."""
    return _ask("Variable name (enter for no name): ", is_hidden=False, reads_lines=reads_lines, unanswered=NO_STRING)


def ask_choice(question: str, answers: list[str]) -> str:
    """One of these answers. Asks at the terminal until the user types one of them."""
    return _ask_until(f"{question} ({', '.join(map(escape, answers))}): ", answers)


def ask_consent(question: str) -> bool:
    """Whether the user says yes; False if nobody is at a terminal."""
    return os.isatty(0) and _ask_until(f"{question} (yes, no): ", ["yes", "y", "no", "n"]).startswith("y")


def _ask_until(question: str, answers: list[str]) -> str:
    typed = ""
    while typed not in answers:
        typed = _ask(question, is_hidden=False, reads_lines=False, unanswered=NO_LABEL).decode(errors="replace").strip()
    return typed


def _ask_hidden_password(question: str, purpose: Purpose) -> bytes:
    typed = _ask(question, is_hidden=True, reads_lines=purpose.reads_lines, unanswered=NO_PASSWORD).strip()
    if not typed:
        raise Refused("you typed an empty password; try again")
    return typed


def _ask(question: str, is_hidden: bool, reads_lines: bool, unanswered: str) -> bytes:
    """The answer to a question, without the end of its line. Raises NoAnswer with the text `unanswered` if there is no
    terminal and no line of standard input."""
    terminal = _open_terminal()
    if terminal is None:
        if not reads_lines:
            raise NoAnswer(unanswered.format(FOR_DATA))
        return _require_utf8(_read_input_line(question, unanswered))
    with terminal:
        return _require_utf8(_ask_hidden(terminal, question)) if is_hidden else _ask_shown(terminal, question)


def _open_terminal() -> FileIO | None:
    """The terminal of this process, or the one that is its standard input; None if there is none."""
    try:
        return open("/dev/tty", "r+b", buffering=0)
    except OSError:
        return open(0, "r+b", buffering=0, closefd=False) if os.isatty(0) else None


def _ask_shown(terminal: FileIO, question: str) -> bytes:
    write_when_possible(terminal.fileno(), question.encode())
    text = _read_line(terminal)
    if not text:
        raise Refused("you typed nothing; try again")
    return text.removesuffix(b"\n")


def _ask_hidden(terminal: FileIO, question: str) -> bytes:
    """The answer, which is not shown. Ctrl-Z has no effect: after `fg`, a shell would show what is typed. A terminal
    that is gone is an OSError."""
    try:
        shown = termios.tcgetattr(terminal)
        hidden = [*shown[:3], shown[3] & ~termios.ECHO, *shown[4:6], [*shown[6]]]
        hidden[6][termios.VSUSP] = NO_KEY
        try:
            termios.tcsetattr(terminal, termios.TCSAFLUSH, hidden)
            text = _ask_shown(terminal, question).replace(SUSPEND, b"")
        finally:
            termios.tcsetattr(terminal, termios.TCSAFLUSH, shown)
    except termios.error as fault:
        raise OSError(*fault.args) from None
    write_when_possible(terminal.fileno(), b"\n")
    return text


def _read_input_line(question: str, unanswered: str) -> bytes:
    """The next line of standard input, for a question that is shown on standard error."""
    write_error(question.rstrip())
    with open(0, "rb", buffering=0, closefd=False) as stream:
        try:
            text = _read_line(stream)
        except OSError:
            # It is closed.
            text = b""
    if not text:
        raise NoAnswer(unanswered.format(NO_LINE.format(question.strip(" :"))))
    return text.removesuffix(b"\n")


def _read_line(stream: FileIO) -> bytes:
    """The next line, byte by byte, so that what follows is left to others."""
    text = bytearray()
    while not text.endswith(b"\n"):
        typed = _read_byte(stream)
        # Ctrl-D ends the line, too.
        if not typed:
            break
        text += typed
    return bytes(text)


def _read_byte(stream: FileIO) -> bytes:
    typed = stream.read(1)
    while typed is None:
        # Another program has set it not to wait.
        select([stream], [], [])
        typed = stream.read(1)
    return typed


def _require_utf8(text: bytes) -> bytes:
    """Refuses what is not UTF-8, so that the same keys give the same password in every locale."""
    try:
        text.decode()
    except UnicodeError:
        raise Refused("what you typed is not valid UTF-8; set the terminal to UTF-8") from None
    return text

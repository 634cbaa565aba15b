"""Runs ansible-vault, which does all encryption and decryption. Plaintext and envelopes pass only through pipes.

Its status is not enough: before an output counts, its form and its length have to be those of a whole one.
"""

from __future__ import annotations

import os
import re
import threading
from collections.abc import Callable, Hashable
from contextlib import suppress
from functools import cache, partial

from ansible_vault_companions import processes
from ansible_vault_companions.envelopes.header import (
    MAGIC,
    is_whole_envelope,
    measure_ciphertext,
    measure_padded,
    read_label,
)
from ansible_vault_companions.passwords.labels import (
    Credential,
    Policy,
    describe_attempts,
    order_to_try,
    require_credential,
)
from ansible_vault_companions.passwords.password import Password
from ansible_vault_companions.quoting import escape
from ansible_vault_companions.refusals import Refused

NAME = "ansible-vault"
NOT_DECRYPTED = "no secret decrypts this vault"
DAMAGED = "it is damaged"
# The beginning of an error message.
ERROR = "ERROR! "
# The command that makes a value of YAML, in which a margin precedes each line of the envelope.
TO_VALUE = "encrypt_string"
MARGIN = b" " * 10
# The commands that take an envelope, and those that make one.
FROM_ENVELOPE = ("view", "decrypt", "rekey")
TO_ENVELOPE = ("encrypt", "rekey", TO_VALUE)
NOT_WHOLE = f"{NAME} failed: it ended with status 0, but its output is not whole; run this again"
# The bytes of all remembered envelopes and texts, since there may be any number of files.
REMEMBERED_BYTES = 1 << 26
# The version that this project's program prints. That of Ansible 2.10 begins like it, and has more lines.
OWN_VERSION = re.compile(rb"ansible-vault \d[^\n]*\n")
# How a script begins that Python runs: its first line names it or, where pip has put a long path, the second one.
PYTHON_SCRIPT = re.compile(rb"#! *(.*python.*)\n|#!/bin/sh\n'''exec' [\"']?(.*?)[\"']? \"\$0\"")
LONGEST_START = 4_096


class NotDecrypted(Refused):
    """No password decrypts a vault."""


class Decryption:
    """An envelope, its label, the password that decrypts it, and the plaintext."""

    def __init__(self, envelope: bytes, password: Password, plaintext: bytes, policy: Policy) -> None:
        self.envelope = envelope
        self.label = read_label(envelope) or ""
        self.password = password
        self.plaintext = plaintext
        # What its label means.
        self.policy = policy

    def require_credential(self, where: str = "", is_same_text: bool = False) -> Credential:
        """The credential for another text in its place, or for the same one again. Refuses one that may not do that."""
        return require_credential(self.password, self.label, self.policy, where, is_same_text)


def _name_damage(envelope: bytes, fault: Refused) -> Refused:
    """The refusal to decrypt an envelope. If it is damaged, no other password helps."""
    if is_whole_envelope(envelope) or not envelope.startswith(MAGIC):
        return fault
    why = "" if isinstance(fault, NotDecrypted) else f": {fault}"
    return type(fault)(f"{DAMAGED}{why}; restore an earlier version", fault.status)


Decrypt = Callable[[bytes], Decryption]


class RememberedRun:
    """What a call returns or refuses. Whoever asks first makes the call, and others wait for it."""

    def __init__(self, call: Callable[[], bytes]) -> None:
        self.call = call
        self.lock = threading.Lock()
        self.data: bytes | None = None
        self.refusal: Callable[[], Refused] | None = None

    def get(self) -> bytes:
        with self.lock:
            if self.data is None and self.refusal is None:
                try:
                    self.data = self.call()
                except Refused as fault:
                    # The exception itself would keep the frames that it passes, and the envelope that they hold.
                    self.refusal = partial(type(fault), str(fault), fault.status)
        if self.data is None:
            assert self.refusal
            raise self.refusal()
        return self.data


class NoProgram(Refused):
    """This project's ansible-vault is missing. There may be others of this name."""

    def __init__(self, text: str, others: list[str]) -> None:
        super().__init__(text)
        self.others = others


class Tool:
    """This project's ansible-vault. Each run derives a key, and the same envelope may occur more than once, so results
    are remembered, including refusals."""

    def __init__(self, path: str) -> None:
        self.path = path
        self.lock = threading.Lock()
        self.results: dict[Hashable, RememberedRun] = {}
        self.room = REMEMBERED_BYTES

    def describe(self) -> str:
        return f"the tool is {escape(self.path)}"

    def announce(self, name: str) -> None:
        """Says at a terminal what else than this project's program works for a companion."""

    def run(self, words: list[str], data: bytes, passwords: list[Password], label: str = "") -> bytes:
        """The tool's output, with a label if it is an envelope. Raises Refused with the tool's message if it fails."""
        done = processes.run_program(
            [self.path, *words], data, pass_fds=[password.descriptor for password in passwords]
        )
        if done.returncode < 0:
            raise Refused(f"signal {-done.returncode} ended {NAME}; run this again")
        if done.returncode > 0:
            text = done.stderr.decode(errors="replace").strip().removeprefix(ERROR)
            kind = NotDecrypted if text == NOT_DECRYPTED else Refused
            raise kind(text or f"{NAME} ended with status {done.returncode}", done.returncode)
        require_whole(words[0], data, done.stdout, label)
        return done.stdout

    def view(self, envelope: bytes, password: Password) -> bytes:
        """The plaintext, decrypted with this password, once for the same envelope."""
        words = ["view", password.make_option()]
        return self.remember((envelope, password), len(envelope), lambda: self.run(words, envelope, [password]))

    def decrypt(self, envelope: bytes, passwords: list[Password], policy: Policy) -> Decryption:
        password, text = self.try_passwords(envelope, passwords, policy, partial(self.view, envelope))
        return Decryption(envelope, password, text, policy)

    def try_passwords(
        self, envelope: bytes, passwords: list[Password], policy: Policy, run: Callable[[Password], bytes]
    ) -> tuple[Password, bytes]:
        """The password that decrypts an envelope, and the output of the run with it. They are tried one at a time,
        those with the envelope's label first, so it is certain which one works."""
        label = read_label(envelope)
        tried = order_to_try(passwords, label, policy)
        try:
            for password in tried:
                with suppress(NotDecrypted):
                    output = run(password)
                    password.trust()
                    return password, output
            raise NotDecrypted(f"{NOT_DECRYPTED} {describe_attempts(label, tried, policy)}")
        except Refused as fault:
            raise _name_damage(envelope, fault) from None

    def encrypt(self, plaintext: bytes, credential: Credential) -> bytes:
        """The plaintext, encrypted and labeled with a credential."""
        password, label = credential.password, credential.label
        return self.run(["encrypt", password.make_option(label=label)], plaintext, [password], label)

    def encrypt_again(self, envelope: bytes, plaintext: bytes, credential: Credential) -> bytes:
        """Encrypts the plaintext to replace an envelope. Identical envelopes get the same replacement, so that copies
        stay copies. Different envelopes with the same plaintext get different ones."""
        size = len(envelope) + len(plaintext)
        return self.remember((envelope, plaintext, credential), size, lambda: self.encrypt(plaintext, credential))

    def remember(self, what: Hashable, size: int, call: Callable[[], bytes]) -> bytes:
        """The result of a call, or that of an equal one before it, if there was room to remember it."""
        with self.lock:
            result = self.results.get(what) or RememberedRun(call)
            if what not in self.results and size <= self.room:
                self.room -= size
                self.results[what] = result
        return result.get()


def find_tool(companion: str, only_shows: bool = False) -> Tool:
    """This project's program or, if there is none, Ansible's tool."""
    try:
        return find_own(companion, only_shows)
    except NoProgram as missing:
        # Most runs have the program.
        from ansible_vault_companions import ansible_tool

        return ansible_tool.find_ansible(missing)


def find_own(companion: str, only_shows: bool = False) -> Tool:
    """This project's program beside a companion, or else the first one on PATH."""
    beside = processes.list_beside(companion)
    paths = processes.find_programs([*beside, *os.get_exec_path()], NAME, companion)
    for path in paths:
        # The one beside was installed with the companion, so a text that is only shown can do without the question.
        if not read_python(path) and (only_shows and os.path.dirname(path) in beside or _is_own(path)):
            return Tool(path)
    if not paths:
        raise NoProgram(f"there is no {NAME} beside this program or on PATH; install it", paths)
    why = "is not the ansible-vault that the companions need; put the right one beside them or on PATH"
    raise NoProgram(f"{paths[0]} {why}", paths)


def _is_own(path: str) -> bool:
    return OWN_VERSION.fullmatch(ask_version(path)) is not None


@cache
def ask_version(path: str) -> bytes:
    return processes.run_program([path, "--version"]).stdout


def read_python(path: str) -> list[str]:
    """The words that start the Python of a script; none for any other program."""
    with suppress(OSError), open(path, "rb") as file:
        found = PYTHON_SCRIPT.match(file.read(LONGEST_START))
        if found:
            line, alone = map(os.fsdecode, found.groups(b""))
            return line.split() or [alone]
    return []


def describe_tool(companion: str) -> str:
    """Which tool works for a companion, or why none does."""
    try:
        return find_tool(companion).describe()
    except Refused as fault:
        return str(fault)


def require_whole(command: str, data: bytes, output: bytes, label: str) -> None:
    """Refuses an output that is not what the command makes of this data. Only the length tells that a plaintext is cut,
    and not within the last block of the ciphertext."""
    makes_envelope = command in TO_ENVELOPE
    if makes_envelope:
        output = _find_envelope(output) if command == TO_VALUE else output
        if not (is_whole_envelope(output) and output.endswith(b"\n") and read_label(output) == label):
            raise Refused(NOT_WHOLE)
    before = measure_ciphertext(data) if command in FROM_ENVELOPE else measure_padded(len(data))
    after = measure_ciphertext(output) if makes_envelope else measure_padded(len(output))
    if before != after:
        raise Refused(NOT_WHOLE)


def _find_envelope(value: bytes) -> bytes:
    """The envelope below the first line of a value, which may have line ends in its name."""
    _, _, lines = value.rpartition(b"!vault |\n")
    return b"".join(line.removeprefix(MARGIN) for line in lines.splitlines(keepends=True))

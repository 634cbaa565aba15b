"""Lets Ansible's ansible-vault encrypt and decrypt, where this project's program is not installed.

A run of it takes half a second, nearly all of it to start. So its Python starts once, for all requests of a companion.
Passwords, plaintext and envelopes pass only through pipes.
"""

from __future__ import annotations

import json
import os
import re
import sys
import threading
from contextlib import suppress
from subprocess import DEVNULL, PIPE

from ansible_vault_companions import ansible_worker, processes
from ansible_vault_companions.envelopes.header import is_whole_envelope
from ansible_vault_companions.output import write_error
from ansible_vault_companions.passwords.password import Password
from ansible_vault_companions.quoting import escape
from ansible_vault_companions.refusals import Refused
from ansible_vault_companions.tool import NAME, NOT_DECRYPTED, NoProgram, NotDecrypted, Tool
from ansible_vault_companions.tool import ask_version, read_python, require_whole

# Where Ansible's version names its Python, which a script of pyenv does not.
PYTHON_LINE = re.compile(rb"\n  python version = .*\((/.*)\)\n")
# What Ansible raises if the password is wrong.
WRONG_PASSWORD = "AnsibleVaultError"


def find_ansible(missing: NoProgram) -> Tool:
    """Ansible's tool among others of its name. If there is none, raises that refusal, or the reason of the last one."""
    fault: Refused = missing
    for path in missing.others:
        python = _find_python(path)
        try:
            if python:
                return AnsibleTool(path, python)
        except Refused as why:
            fault = Refused(f"{escape(path)} does not work: {why}")
    raise fault from None


def _find_python(path: str) -> list[str]:
    words = read_python(path)
    found = None if words else PYTHON_LINE.search(ask_version(path))
    return [os.fsdecode(found[1])] if found else words


def _make_environment() -> dict[str, str]:
    """No variable changes what Ansible does. It makes a directory when it starts, and a home may be read-only."""
    kept = {name: value for name, value in os.environ.items() if not name.startswith("ANSIBLE_")}
    return {**kept, "ANSIBLE_LOCAL_TEMP": os.environ.get("TMPDIR") or "/tmp"}


class AnsibleTool(Tool):
    """Ansible's tool. Each request has one password."""

    def __init__(self, path: str, python: list[str]) -> None:
        """Starts the Python with these words. Raises Refused if it has no Ansible."""
        super().__init__(path)
        self.turn = threading.Lock()
        # The process ends when the companion closes its input, but not by keys, which may be meant for an editor.
        self.process = processes.start_program(
            [*python, "-EB", os.path.realpath(ansible_worker.__file__)],
            stdin=PIPE,
            stdout=PIPE,
            stderr=DEVNULL,
            env=_make_environment(),
            start_new_session=True,
        )
        self.version = self._ask("version").decode()

    def describe(self) -> str:
        why = "since this project's is neither beside this program nor on PATH"
        return f"the tool is Ansible's {escape(self.path)} ({self.version}), {why}"

    def announce(self, name: str) -> None:
        if sys.stderr.isatty():
            write_error(f"{name}: {self.describe()}")

    def run(self, words: list[str], data: bytes, passwords: list[Password], label: str = "") -> bytes:
        command = words[0]
        if command == "view" and not is_whole_envelope(data):
            raise Refused("vault is malformed")
        output = self._ask(command, label, passwords[0].content, data)
        require_whole(command, data, output, label)
        return output

    def _ask(self, command: str, label: str = "", password: bytes = b"", data: bytes = b"") -> bytes:
        """Makes a request, in a line of JSON, in which a character stands for each byte."""
        request = json.dumps([command, label, password.decode("latin-1"), data.decode("latin-1")])
        assert self.process.stdin and self.process.stdout
        with self.turn:
            try:
                self.process.stdin.write(f"{request}\n".encode())
                self.process.stdin.flush()
                fault, answer = json.loads(self.process.stdout.readline())
            except (OSError, ValueError):
                # What is left of the request cannot be written later, either.
                with suppress(OSError):
                    self.process.stdin.close()
                raise Refused(f"Ansible's {NAME} ended early; run this again") from None
        if fault == WRONG_PASSWORD:
            raise NotDecrypted(NOT_DECRYPTED)
        if fault:
            raise Refused(f"Ansible's {NAME}: {answer}")
        return bytes(answer, "latin-1")

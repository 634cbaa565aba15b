"""Runs the editor that the environment names, as git does: what it names is a command of the shell."""

from __future__ import annotations

import os
import re
from contextlib import suppress

from ansible_vault_companions import processes, signals

# The variables that name the editor, that of later releases of Ansible first.
VARIABLES, DEFAULT = ("ANSIBLE_EDITOR", "VISUAL", "EDITOR"), "vi"
# A command that is more than the name of a program and its arguments, or begins with a word of the shell's own.
OF_SHELL = re.compile(r".*[=;&|()<>{}`\n]|\s*(?:command|eval|exec)\s", re.DOTALL)


def run_editor(path: str) -> str:
    """Runs the editor on a file. Returns why what it leaves must not be used; nothing if it may be."""
    editor = next(filter(None, map(os.environ.get, VARIABLES)), DEFAULT)
    # After `exec`, a signal reaches the editor itself, and not a shell that would leave it behind.
    command = editor if OF_SHELL.match(editor) else f"exec {editor}"
    status = 0
    # What was saved first is still there.
    with suppress(signals.Stopped), signals.Arrival():
        status = processes.run_on_terminal(["sh", "-c", f'{command} "$@"', editor, path])
    if signals.received:
        return describe_signal()
    return f"the editor failed ({editor}, status {status})" if status else ""


def describe_signal() -> str:
    return f"signal {signals.received} ended the edit"

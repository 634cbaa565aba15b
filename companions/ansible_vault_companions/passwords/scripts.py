"""Runs password scripts."""

from __future__ import annotations

import os

from ansible_vault_companions import processes
from ansible_vault_companions.quoting import escape, quote_word
from ansible_vault_companions.refusals import Refused, describe_fault

# A script gets the label if its name, without the suffix, ends with this.
CLIENT = "-client"


def run_script(path: str, label: str) -> bytes:
    """What a script prints, without the line ends around it, as with Ansible. The label is empty if none was given."""
    is_client = os.path.splitext(path)[0].endswith(CLIENT)
    words = [os.path.abspath(path)]
    if is_client and label:
        words += ["--vault-id", label]
    streams: dict[str, None] = {}
    # A script may ask at the terminal through its standard streams, but must not read the companion's input.
    if os.isatty(0):
        streams["stdin"] = None
    # Messages of a client are shown only if it fails.
    if not is_client:
        streams["stderr"] = None
    try:
        done = processes.run_script(words, **streams)
    except OSError as fault:
        if fault.filename not in (None, words[0]):
            raise Refused(processes.describe_start(fault, "this script")) from None
        to_do = f"if it is not a script, run `chmod -x {quote_word(path)}`"
        raise Refused(f"this script cannot be run: {describe_fault(fault, words[0])}; {to_do}") from None
    if done.returncode:
        raise Refused(_describe_failure(done.returncode, done.stderr or b""))
    password = done.stdout.strip(b"\r\n")
    if password != password.strip():
        raise Refused("the password of this script begins or ends with white space, which a file cannot have")
    return password


def _describe_failure(status: int, errors: bytes) -> str:
    """Why a script failed: its status or signal, and its message."""
    why = f"this script ended with status {status}" if status > 0 else f"signal {-status} ended this script"
    message = " ".join(errors.decode(errors="replace").split())
    return f"{why}: {escape(message)}" if message else why

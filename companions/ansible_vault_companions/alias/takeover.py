"""Replaces this process with one run of ansible-vault, from standard input or an argument to standard output."""

from __future__ import annotations

import os
from argparse import Namespace

from ansible_vault_companions import processes
from ansible_vault_companions.alias.command_line import ENCRYPT_STRING, REKEY, STANDARD_INPUT
from ansible_vault_companions.alias.password_choice import Call
from ansible_vault_companions.alias.standard_input import read_standard_input, replace_standard_input

PROGRAM = "ansible-vault"
# The module `typing` takes long to import.
TYPE_CHECKING = False
if TYPE_CHECKING:
    from typing import NoReturn


def needs_own_runs(args: Namespace) -> bool:
    """Whether there is a file, more than one text, or a text to type; or whether a label decides."""
    if getattr(args, "output", None) is not None or args.command == REKEY:
        return True
    if args.command == ENCRYPT_STRING:
        return args.prompt or len(args.arguments) > 1 or bool(args.arguments and args.stdin_name is not None)
    return args.arguments not in ([], [STANDARD_INPUT])


def run_program(companion: str, args: Namespace) -> NoReturn:
    """Runs ansible-vault for one string or for standard input."""
    call = Call(args)
    path = _find_program(companion)
    if args.arguments in ([], [STANDARD_INPUT]) and os.isatty(0):
        replace_standard_input(read_standard_input())
    names = [f"--name={name}" for name in getattr(args, "name", [])]
    arguments = ["--", *args.arguments] if args.arguments else []
    descriptors = [password.descriptor for password in call.passwords]
    processes.take_over(path, [*call.words(call.passwords), *names, *arguments], descriptors)


def _find_program(companion: str) -> str:
    path = processes.find_beside(companion, PROGRAM)
    if path is None:
        # One on PATH may be another program.
        from ansible_vault_companions.tool import find_own

        path = find_own(companion).path
    return path

"""Whether standard input is a text to encrypt or decrypt, and so no answer to a question; and how it is read.

At a terminal, the user learns how to end it, and nothing follows it in the same line: a copy of what is shown would
have the secret in it.
"""

from __future__ import annotations

import os
from argparse import Namespace

from ansible_vault_companions.alias.command_line import ENCRYPT_STRING, NAME, STANDARD_INPUT
from ansible_vault_companions.files import reading
from ansible_vault_companions.output import write_error

READING = "Reading standard input. End it with Ctrl-D, or with Ctrl-D twice if the last line is not empty."


def takes_input(args: Namespace) -> bool:
    """Whether standard input is a text to encrypt or decrypt."""
    if args.command == ENCRYPT_STRING:
        is_only = not args.arguments and not args.prompt
        return is_only or STANDARD_INPUT in args.arguments or args.stdin_name is not None
    return not args.arguments or any(map(_is_standard_input, args.arguments))


def _is_standard_input(path: str) -> bool:
    """Whether a FILE is standard input, perhaps by a name such as /dev/stdin."""
    try:
        return path == STANDARD_INPUT or os.path.samestat(os.stat(path), os.fstat(0))
    except OSError:
        return False


def read_standard_input() -> bytes:
    """The whole of standard input."""
    if not os.isatty(0):
        return reading.read_input(0)
    write_error(f"{NAME}: {READING}")
    text = reading.read_input(0)
    if not text.endswith(b"\n"):
        _end_line()
    return text


def replace_standard_input(text: bytes) -> None:
    """Makes this text what a program that takes over reads."""
    descriptor = os.memfd_create("input")
    with open(descriptor, "wb", closefd=False) as file:
        file.write(text)
    os.lseek(descriptor, 0, os.SEEK_SET)
    os.dup2(descriptor, 0)


def _end_line() -> None:
    """Ends the line on the terminal, where the program's messages or its output go there."""
    shown = [descriptor for descriptor in (2, 1) if os.isatty(descriptor)]
    for descriptor in shown[:1]:
        os.write(descriptor, b"\n")

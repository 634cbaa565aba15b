"""`encrypt_string` makes a value of each string: the typed one, standard input and those of the command line."""

from __future__ import annotations

import os
from argparse import Namespace
from typing import NamedTuple

from ansible_vault_companions import quoting
from ansible_vault_companions.alias.command_line import STANDARD_INPUT
from ansible_vault_companions.alias.output_file import write_output
from ansible_vault_companions.alias.password_choice import Call
from ansible_vault_companions.alias.standard_input import read_standard_input, takes_input
from ansible_vault_companions.output import write_error
from ansible_vault_companions.passwords import prompts
from ansible_vault_companions.tool import find_own


class String(NamedTuple):
    """A string to encrypt, with the name of its variable, if any, and its origin."""

    content: bytes
    name: str | None
    origin: str


def encrypt_strings(companion: str, call: Call) -> int:
    """Writes a value for each string, in Ansible's order. Returns the exit status."""
    tool = find_own(companion)
    strings = _list_strings(call.args, call.purpose.reads_lines)
    values = []
    for number, string in enumerate(strings, 1):
        named = [f"--stdin-name={string.name}"] if string.name else []
        words = [*call.words(call.passwords, "--stdin-name", "--output"), *named]
        values.append(tool.run(words, string.content, call.passwords, call.new_label))
        if len(strings) > 1:
            what = f"the variable {quoting.escape(string.name)}" if string.name else "a string without a name"
            write_error(f"# Value {number} is {what}, from {string.origin}.")
    return write_output(call.args, b"".join(values))


def _list_strings(args: Namespace, reads_lines: bool) -> list[String]:
    strings = []
    if args.prompt:
        if args.arguments or not args.name:
            name = prompts.ask_name(reads_lines).decode(errors="surrogateescape")
        else:
            name = args.name[0]
        strings.append(String(prompts.ask_string(not args.show_input, reads_lines), name, "the prompt"))
    if takes_input(args):
        strings.append(String(read_standard_input(), args.stdin_name, "standard input"))
    arguments = [os.fsencode(text) for text in args.arguments if text != STANDARD_INPUT]
    names = [*args.name, *[None] * len(arguments)]
    for argument, name in zip(arguments, names):
        strings.append(String(argument, name, "the command line"))
    return strings

"""`create` and `edit` run ansible-vault-edit. One refuses a file that exists, and the other one that is missing."""

from __future__ import annotations

import os
from argparse import Namespace

from ansible_vault_companions import processes
from ansible_vault_companions.alias import command_line
from ansible_vault_companions.alias.command_line import CREATE, EDIT
from ansible_vault_companions.alias.file_paths import require_readable, resolve_new
from ansible_vault_companions.passwords import options
from ansible_vault_companions.quoting import escape
from ansible_vault_companions.refusals import Refused

EDIT_PROGRAM = "ansible-vault-edit"
# With it, a new vault may be empty.
ALLOW_EMPTY = "--allow-empty"


def run_edit_program(companion: str, args: Namespace) -> int:
    """Runs ansible-vault-edit, which obtains the passwords itself, for `create` and `edit`."""
    path = processes.find_beside(companion, EDIT_PROGRAM)
    if path is None:
        raise Refused(f"there is no {EDIT_PROGRAM} beside this program; install it")
    for file in args.arguments:
        _require_fitting(args.command, file)
    words = [options.ASK_IF_NONE, *options.repeat_options(args), *command_line.list_passed_on(args)]
    if args.command == CREATE:
        words.append(ALLOW_EMPTY)
    # To ansible-vault-edit, a word that begins with a dash may be an option.
    files = [os.path.join(os.curdir, file) if file.startswith("-") else file for file in args.arguments]
    processes.take_over(path, [*words, *files], [])


def _require_fitting(command: str, path: str) -> None:
    """Refuses an existing file to create, and a missing one to edit: its name may be mistyped."""
    if command == EDIT:
        require_readable(path, path)
    elif os.path.lexists(path):
        raise Refused(f"{escape(path)} exists already; use `edit`")
    else:
        resolve_new(path)

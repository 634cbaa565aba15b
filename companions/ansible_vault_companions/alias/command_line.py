"""The command line of ansible-vault-with: that of ansible-vault, and more from Ansible's tool."""

from __future__ import annotations

import argparse
from collections.abc import Collection, Iterable
from argparse import Namespace

from ansible_vault_companions import parsers
from ansible_vault_companions.passwords import options
from ansible_vault_companions.passwords.labels import ANY_LABEL

NAME = "ansible-vault-with"
VIEW = "view"
DECRYPT = "decrypt"
ENCRYPT = "encrypt"
ENCRYPT_STRING = "encrypt_string"
REKEY = "rekey"
CREATE = "create"
EDIT = "edit"
COMMANDS = {
    ENCRYPT: "encrypt files in place",
    DECRYPT: "decrypt vaults in place",
    VIEW: "print the plaintext of vaults",
    REKEY: "re-encrypt vaults with a new password, in place",
    ENCRYPT_STRING: "encrypt strings as values for YAML",
    CREATE: "edit a new vault",
    EDIT: "edit vaults",
}
# The commands by their use of passwords.
ENCRYPTING = (ENCRYPT, ENCRYPT_STRING)
EDITING = (CREATE, EDIT)
# Those that take a salt.
SALTING = (*ENCRYPTING, REKEY)
WRITING = (DECRYPT, *SALTING)
IN_PLACE = (ENCRYPT, DECRYPT, REKEY)
STANDARD_INPUT = "-"
MATCH = "--require-id-match"
ENCRYPT_ID = "--encrypt-vault-id"
SUMMARY = """\
Runs a command of ansible-vault with the passwords that Ansible would use.
Unlike ansible-vault, it reads ansible.cfg, runs password scripts, asks for
passwords, and changes files in place. Options for passwords may precede or
follow COMMAND. --help after COMMAND prints the help for that command. If
neither you nor the settings name a password, you are asked for one at the
terminal."""
EXAMPLE = f"""\
Decrypt two files in place, with a password that is typed:
  $ {NAME} --vault-id prod@prompt decrypt a.yml b.yml

Keep using the commands of Ansible's own tool:
  $ alias ansible-vault={NAME}
  $ ansible-vault view --ask-vault-pass -v group_vars/all/vault.yml"""
# The options that are passed on as they are: their commands, what follows them, if anything, and their help.
PASSED_ON = {
    ENCRYPT_ID: ((*SALTING, *EDITING), "LABEL", "the label of the password to encrypt with, among those given"),
    MATCH: ((VIEW, DECRYPT, REKEY), "", "try only passwords with the label of the vault"),
    ANY_LABEL: ((REKEY, *EDITING), "", options.ANY_LABEL_HELP),
    "--output": (WRITING, "PATH", "the file to write, or - for standard output"),
    "--salt": (SALTING, "TEXT", "the salt; never use one twice with the same password"),
    "--salt-file": (SALTING, "PATH", "the file whose first 32 bytes are the salt"),
    "--stdin-name": ((ENCRYPT_STRING,), "NAME", "encrypt standard input, under this name"),
    "--value": (EDITING, "KEY.PATH", "set this YAML value from standard input"),
    "--resume": (EDITING, "", "reopen what the last edit could not store in FILE"),
}
# What follows some commands: how many words, what they are, and their help.
ARGUMENTS: dict[str, tuple[int | str, str, str]] = {
    CREATE: (1, "FILE", "the new vault"),
    EDIT: ("+", "FILE", "vaults or YAML files"),
    ENCRYPT_STRING: ("*", "STRING", "the strings, or - for standard input"),
}


def make_command_line(names: Iterable[str] = COMMANDS, words: Collection[str] = COMMANDS) -> parsers.Parser:
    """The parser of these commands, with the options of those that are among the words."""
    parser = parsers.make_parser(NAME, SUMMARY, EXAMPLE, allow_abbrev=True)
    options.add_options(parser, before="before_")
    parser.add_argument("-v", "--verbose", action="count", help=argparse.SUPPRESS)
    commands = parser.add_subparsers(dest="command", metavar="COMMAND", title="commands")
    for name in names:
        text = COMMANDS[name]
        command = commands.add_parser(
            name, help=text, description=text, formatter_class=parsers.Formatter, add_help=False
        )
        if name in words:
            _add_options(command, name)
    return parser


def parse(words: list[str]) -> Namespace:
    """The command line."""
    # argparse takes long to make a parser. If the command comes first, nothing needs those of the others.
    parser = make_command_line(words[:1] if words and words[0] in COMMANDS else COMMANDS, words)
    args = parser.parse_args(words)
    if not args.command:
        parser.error(f"no command is given; {NAME} --help lists the commands")
    args.asks_if_none = True
    args.vault_id = [*args.before_vault_id, *args.vault_id]
    args.vault_password_file = [*args.before_vault_password_file, *args.vault_password_file]
    if len(args.new_vault_id) + len(args.new_vault_password_file) > 1:
        parser.error("rekey takes one new password")
    if args.command == ENCRYPT_STRING and len(args.name) > _count_strings(args):
        parser.error("there are more names than STRINGs; --stdin-name is the name of standard input")
    if args.command in IN_PLACE and args.output is not None and len(args.arguments) > 1:
        parser.error("--output is for a single FILE")
    if args.command in SALTING and _count_texts(args) > 1 and (args.salt is not None or args.salt_file is not None):
        parser.error("--salt and --salt-file are for a single FILE or STRING: two would share a key stream")
    return args


def _count_strings(args: Namespace) -> int:
    """How many strings `--name` can name. One that is typed has it only if there is no other."""
    strings = [word for word in args.arguments if word != STANDARD_INPUT]
    return len(strings) or int(args.prompt)


def _count_texts(args: Namespace) -> int:
    """How many texts are encrypted."""
    if args.command != ENCRYPT_STRING:
        return len(args.arguments)
    is_named_alone = args.stdin_name is not None and STANDARD_INPUT not in args.arguments
    return len(args.arguments) + int(args.prompt) + int(is_named_alone)


def _add_options(parser: argparse.ArgumentParser, command: str) -> None:
    parsers.add_common_options(parser, NAME)
    options.add_options(parser)
    parser.add_argument("-v", "--verbose", action="count", help=argparse.SUPPRESS)
    for option, (commands, metavar, text) in PASSED_ON.items():
        if command in commands and metavar:
            parser.add_argument(option, metavar=metavar, help=text)
        elif command in commands:
            parser.add_argument(option, action="store_true", help=text)
    if command == REKEY:
        options.add_new_options(parser)
    if command == CREATE:
        parser.add_argument("--skip-tty-check", action="store_true", help="ignored")
    if command == ENCRYPT_STRING:
        name = "the name of the next STRING; may be repeated"
        parser.add_argument("-n", "--name", action="append", default=[], help=name)
        parser.add_argument("-p", "--prompt", action="store_true", help="ask for one more string, and for its name")
        parser.add_argument("--show-input", action="store_true", help="show the string of --prompt while you type it")
    count, what, text = ARGUMENTS.get(command, ("*", "FILE", "the files, or - for standard input"))
    parser.add_argument("arguments", metavar=what, nargs=count, help=text)


def list_passed_on(args: Namespace, without: Iterable[str] = ()) -> list[str]:
    """The words of the options that are passed on."""
    given = {option: getattr(args, option[2:].replace("-", "_"), None) for option in PASSED_ON if option not in without}
    named = {option: value for option, value in given.items() if value not in (None, False)}
    return [option if value is True else f"{option}={value}" for option, value in named.items()]

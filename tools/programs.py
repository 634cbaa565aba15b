"""The programs, their commands and their options, as their own parsers have them: those of the companions, and of the
program its stored help, which a test compares with what it prints.
"""

import argparse
import re
import runpy
import sys
from collections.abc import Iterator
from dataclasses import dataclass
from functools import cache
from pathlib import Path

ROOT = Path(__file__).resolve().parent.parent
COMPANIONS = ROOT / "companions"
sys.path.insert(0, str(COMPANIONS))

from ansible_vault_companions.alias import command_line

PROGRAM, WITH = "ansible-vault", command_line.NAME
NAMES = [PROGRAM, *sorted(path.name for path in COMPANIONS.glob(f"{PROGRAM}-*"))]
LABEL = "[LABEL@]"
# An option, the name of its value, and its text, in the program's help.
OPTION = re.compile(r"^ +(?:(-\w), )? *(--[\w-]+)(?: <(\S+)>)?  +(\S.*)$", re.MULTILINE)
ARGUMENT = re.compile(r"^  \[(\w+)\]  +(\S.*)$", re.MULTILINE)
COMMAND = re.compile(r"^  (\w+)  +(\S.*)$", re.MULTILINE)
# Of these options, a command line has one, unless they may be repeated.
ALTERNATIVES = (
    {"--all", "--since", "--install", "--uninstall"},
    {"--name", "-n", "--stdin-name"},
    {"--new-vault-id", "--new-vault-password-file"},
    {"--resume", "--value"},
    {"--salt", "--salt-file"},
)


@dataclass(frozen=True)
class Option:
    """An option with the name of its value, which is empty for a flag; or an argument, which has only that name."""

    names: tuple[str, ...]
    value: str
    text: str
    repeats: bool

    @property
    def kind(self) -> str:
        """Return what the value is: a file, an id, which is a file after a label, any other text, or nothing."""
        if self.value.removeprefix(LABEL) in ("FILE", "PATH", "SOURCE"):
            return "id" if self.value.startswith(LABEL) else "file"
        return "text" if self.value else ""

    @property
    def summary(self) -> str:
        """Return the first clause of the text."""
        return re.split(r"[;.] ", self.text)[0]

    @property
    def alternatives(self) -> set[str]:
        """Return the options that a command line has no longer after this one, with all spellings."""
        groups = (each for each in ALTERNATIVES if each & {*self.names})
        return set() if self.repeats else {*self.names}.union(*groups)


@dataclass(frozen=True)
class Command:
    """A command of a program, or the program itself, whose name is empty. Without an argument, it has commands."""

    program: str
    name: str
    text: str
    options: list[Option]
    argument: Option | None

    @property
    def line(self) -> str:
        return f"{self.program} {self.name}".strip()

    @property
    def spellings(self) -> set[str]:
        return {name for option in self.options for name in option.names}

    @property
    def takes_files(self) -> bool:
        return self.argument is not None and self.argument.value != "STRING"


def command_of_help(name: str, text: str) -> Command:
    """Return a command of the program."""
    options = [
        Option(tuple(filter(None, names)), value, said, "may be repeated" in said)
        for *names, value, said in OPTION.findall(text)
    ]
    argument = next((Option((), value, said, False) for value, said in ARGUMENT.findall(text)), None)
    return Command(PROGRAM, name, text.partition("\n")[0], options, argument)


def option_of(parser: argparse.ArgumentParser, action: argparse.Action) -> Option:
    repeats = isinstance(action, (argparse._AppendAction, argparse._AppendConstAction)) or action.nargs in ("*", "+")
    value = "" if action.nargs == 0 else str(action.metavar or action.dest.upper())
    return Option(tuple(action.option_strings), value, parser._get_formatter()._expand_help(action), repeats)


def commands_of_parser(program: str, parser: argparse.ArgumentParser, name: str = "") -> Iterator[Command]:
    """Yield the command of a companion's parser, and those of its commands."""
    listed = []
    argument = None
    inner: dict[str, argparse.ArgumentParser] = {}
    for action in parser._actions:
        if isinstance(action, argparse._SubParsersAction):
            inner = action.choices
        elif action.option_strings and action.help != argparse.SUPPRESS:
            listed.append(option_of(parser, action))
        elif not action.option_strings:
            argument = option_of(parser, action)
    yield Command(program, name, " ".join((parser.description or "").split()), listed, argument)
    for inner_name, inner_parser in inner.items():
        yield from commands_of_parser(program, inner_parser, inner_name)


def stored_help(name: str) -> str:
    return (ROOT / "tests" / "texts" / f"{name}.help.txt").read_text()


@cache
def commands() -> list[Command]:
    """Return each program, and after it its commands."""
    own = stored_help("program")
    listed = [command_of_help("", own), *(command_of_help(name, stored_help(name)) for name, _ in COMMAND.findall(own))]
    for name in NAMES[1:]:
        made = (
            command_line.make_command_line
            if name == WITH
            else runpy.run_path(str(COMPANIONS / name))["make_command_line"]
        )
        listed += commands_of_parser(name, made())
    return listed

"""Parsers of command lines, with one layout of help and messages."""

from __future__ import annotations

import argparse
import os
from collections.abc import Callable, Iterable

from ansible_vault_companions import VERSION
from ansible_vault_companions.output import write_error, write_line
from ansible_vault_companions.quoting import escape, quote_word

# The module `typing` takes long to import.
TYPE_CHECKING = False
if TYPE_CHECKING:
    from typing import Any, NoReturn


# Ends the options.
SEPARATOR = "--"


class Formatter(argparse.RawDescriptionHelpFormatter):
    """Names the value of an option once, after all spellings, and no options in the usage, since a list follows."""

    def __init__(self, prog: str) -> None:
        super().__init__(prog, max_help_position=30, width=80)

    def _format_action_invocation(self, action: argparse.Action) -> str:
        if not action.option_strings or action.nargs == 0:
            return super()._format_action_invocation(action)
        return f"{', '.join(action.option_strings)} {action.metavar or action.dest.upper()}"

    def _format_actions_usage(self, actions: Iterable[argparse.Action], _groups: Any) -> str:
        arguments = [action for action in actions if not action.option_strings]
        return f"[OPTION ...] {super()._format_actions_usage(arguments, [])}"


class Parser(argparse.ArgumentParser):
    """A parser whose message is one write, with the words of the command line in printable form."""

    def parse_args(self, words: list[str], file: str | None = None) -> argparse.Namespace:  # type: ignore[override]
        """The command line. A file that is given apart is the last argument, whatever its name."""
        self._refuse_names(words)
        if file is None:
            return super().parse_args(words)
        others = words[:-1] if words[-1:] == [SEPARATOR] else words
        return super().parse_args([*others, SEPARATOR, file])

    def _refuse_names(self, words: list[str]) -> None:
        """Refuses a word that may be an option, or the separator behind them, or the name of a file: where a stranger
        has named a file like an option, a pattern of the shell such as `*` gives it among the others."""
        for word in words:
            if word.startswith("-") and word != "-" and os.path.lexists(word):
                to_do = f"write {quote_word(word)} for the file, or rename it to use the option"
                self.error(f"{word}: a file has this name; {to_do}")
            if word == SEPARATOR:
                return

    def error(self, message: str) -> NoReturn:
        write_error(f"{self.format_usage()}{self.prog}: error: {escape(message)}")
        self.exit(2)


class Version(argparse.Action):
    """Prints the version and, of a companion that decrypts, what does that for it."""

    def __call__(self, parser: argparse.ArgumentParser, *_: object) -> None:
        name, describe_tool = self.const
        write_line(f"{name} {VERSION}")
        if describe_tool:
            write_line(describe_tool())
        parser.exit()


def make_parser(
    name: str,
    summary: str,
    example: str,
    allow_abbrev: bool = False,
    usage: str | None = None,
    describe_tool: Callable[[], str] | None = None,
) -> Parser:
    """A parser that exits with status 2 if the command line is invalid."""
    made = Parser(
        name,
        usage,
        summary,
        f"{example}\n\nSee `man {name}` for more. Companions are tested, not proved.",
        formatter_class=Formatter,
        add_help=False,
        allow_abbrev=allow_abbrev,
    )
    add_common_options(made, name, describe_tool)
    return made


def add_common_options(
    parser: argparse.ArgumentParser, name: str, describe_tool: Callable[[], str] | None = None
) -> None:
    parser.add_argument("-h", "--help", action="help", help="print help")
    options: dict[str, Any] = {"action": Version, "const": (name, describe_tool), "nargs": 0}
    parser.add_argument("-V", "--version", default=argparse.SUPPRESS, help="print version", **options)

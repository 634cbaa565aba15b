"""The options of the companions that name passwords, and what they give."""

from __future__ import annotations

import argparse
from collections.abc import Callable

from ansible_vault_companions.output import write_error
from ansible_vault_companions.passwords import loading
from ansible_vault_companions.passwords.labels import ANY_LABEL, Policy, make_policy
from ansible_vault_companions.passwords.password import Password
from ansible_vault_companions.passwords.settings import Settings
from ansible_vault_companions.passwords.sources import (
    ASK_ID,
    ASK_OPTIONS,
    Purpose,
    Source,
    list_sources,
    make_path_source,
    parse_vault_id,
)
from ansible_vault_companions.refusals import Refused

# Of the alias, for an edit: if nothing names a password, it asks for one. The option for a user always asks.
ASK_IF_NONE = "--ask-if-none-is-named"
NO_PASSWORD = (
    "no password is given: name one with --vault-id or --vault-password-file, in ANSIBLE_VAULT_PASSWORD_FILE or "
    "in ansible.cfg, or type one with --ask-vault-password"
)
ANY_LABEL_HELP = "accept a password whose label differs from the vault's"


def add_options(parser: argparse.ArgumentParser, before: str = "") -> None:
    """Adds the options that name passwords. `before` begins the names of the attributes that get the values."""
    parser.set_defaults(new_vault_id=[], new_vault_password_file=[], any_label=False, asks_if_none=False)
    ids, text = f"{before}vault_id", "the source of a password; may be repeated"
    _add_source(parser, ["--vault-id"], ids, "[LABEL@]SOURCE", text)
    by_path = ["--vault-password-file", "--vault-pass-file"]
    _add_source(parser, by_path, f"{before}vault_password_file", "SOURCE", text)
    asks = "ask at the terminal for a password"
    parser.add_argument(*ASK_OPTIONS, dest=ids, action="append_const", const=ASK_ID, help=asks)


def add_new_options(parser: argparse.ArgumentParser) -> None:
    """Adds the options that name new passwords."""
    text = "the source of a new password"
    _add_source(parser, ["--new-vault-id"], "new_vault_id", "[LABEL@]SOURCE", text)
    _add_source(parser, ["--new-vault-password-file"], "new_vault_password_file", "SOURCE", text)


def _add_source(parser: argparse.ArgumentParser, names: list[str], dest: str, metavar: str, text: str) -> None:
    parser.add_argument(*names, dest=dest, action="append", default=[], metavar=metavar, help=text)


def add_ask_if_none(parser: argparse.ArgumentParser) -> None:
    parser.add_argument(ASK_IF_NONE, dest="asks_if_none", action="store_true", help=argparse.SUPPRESS)


def add_any_label(parser: argparse.ArgumentParser, text: str = ANY_LABEL_HELP) -> None:
    parser.add_argument(ANY_LABEL, action="store_true", help=text)


def load_passwords(
    parser: argparse.ArgumentParser, args: argparse.Namespace, purpose: Purpose = Purpose()
) -> tuple[list[Password], Policy]:
    """The passwords of a command line that is invalid if nothing names one."""
    return load_named(parser.prog, args, purpose, parser)


def load_named(
    name: str, args: argparse.Namespace, purpose: Purpose, parser: argparse.ArgumentParser | None = None
) -> tuple[list[Password], Policy]:
    """The passwords that options and settings name, and what labels mean to them. The parser is for a command line that
    is invalid if nothing names one."""
    settings = read_settings(args, lambda text: write_error(f"{name}: {text}"), purpose.for_git)
    sources = list_sources(args.vault_id, args.vault_password_file, settings)
    if sources:
        passwords = loading.read_passwords(name, sources, purpose)
    else:
        passwords = [_ask_or_refuse(args, purpose, parser)]
    requires_match = getattr(args, "require_id_match", False)
    return passwords, make_policy(passwords, settings, args.any_label, requires_match)


def _ask_or_refuse(args: argparse.Namespace, purpose: Purpose, parser: argparse.ArgumentParser | None) -> Password:
    """The password that the user types, if a companion asks for it. Otherwise, the command line is invalid or, without
    a parser, Refused is raised."""
    if args.asks_if_none:
        return loading.load_typed_password(purpose, NO_PASSWORD)
    if parser:
        parser.error(NO_PASSWORD)
    raise Refused(NO_PASSWORD)


def load_new_passwords(args: argparse.Namespace, reads_lines: bool = False) -> list[Password]:
    """The new passwords from a command line."""
    sources = _parse_sources(args.new_vault_id, args.new_vault_password_file)
    return [loading.load_password(source, Purpose(True, reads_lines)) for source in sources]


def list_files(ids: list[str], paths: list[str]) -> list[str]:
    """The paths of the password files that the values of these options name, as they were written."""
    return [source.place for source in _parse_sources(ids, paths) if not source.is_prompt]


def _parse_sources(ids: list[str], paths: list[str]) -> list[Source]:
    return [*(parse_vault_id(text) for text in ids), *(make_path_source(path) for path in paths)]


def repeat_options(args: argparse.Namespace) -> list[str]:
    """The words of a command line that name the same passwords."""
    words = [f"--vault-id={text}" for text in args.vault_id]
    words += [f"--vault-password-file={path}" for path in args.vault_password_file]
    return words


def read_settings(args: argparse.Namespace, warn: Callable[[str], None], for_git: bool = False) -> Settings:
    """The settings that apply along with these options. What git runs reads none beside an option that names a
    password, so a repository cannot name one."""
    is_named = args.vault_id or args.vault_password_file
    return Settings(warn, are_read=not (for_git and is_named))

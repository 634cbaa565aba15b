"""Prints the plaintext of a file or of one of its values, or the file as it is. git asks for each version of each
vault, so what only other files need is imported for these alone."""

from __future__ import annotations

from collections.abc import Callable
from functools import partial

from ansible_vault_companions import output
from ansible_vault_companions.envelopes.header import MAGIC
from ansible_vault_companions.files import link_bounds, reading
from ansible_vault_companions.passwords.labels import Policy
from ansible_vault_companions.passwords.password import Password
from ansible_vault_companions.quoting import escape
from ansible_vault_companions.refusals import Refused, describe_fault
from ansible_vault_companions.showing import commit_message, first_line
from ansible_vault_companions.tool import find_tool

NAME = "ansible-vault-textconv"
NO_ENVELOPE = "it is not a vault and has no encrypted value"


def print_plaintext(
    companion: str, path: str, key_path: str | None, load: Callable[[], tuple[list[Password], Policy]]
) -> None:
    """Prints a typed file or, if a key path is given, only the value there."""
    target = link_bounds.resolve_to_read(path)
    if commit_message.is_open():
        if key_path is not None:
            raise Refused(commit_message.WOULD_STAY)
        _print_as_it_is(path, target, commit_message.WOULD_STAY)
        return
    passwords, policy = load()
    if key_path is not None:
        _print_value(companion, key_path, target, passwords, policy)
        return
    try:
        pieces = _show_vault(companion, target, passwords, policy)
        if pieces is None:
            pieces = _show_values(companion, path, target, passwords, policy)
    except (Refused, reading.TooLong) as fault:
        _print_as_it_is(path, target, describe_fault(fault, target))
        return
    if pieces is None:
        _print_as_it_is(path, target, NO_ENVELOPE, first_line.NOTHING)
        return
    for piece in pieces:
        output.write_data(piece)


def _show_vault(companion: str, target: str, passwords: list[Password], policy: Policy) -> list[bytes] | None:
    """What is shown of a file that is a vault; None for any other file, and for a conflict that begins with one."""
    vault = reading.read_if_begins(target, MAGIC)
    if not vault:
        return None
    tool = find_tool(companion, only_shows=True)
    try:
        decrypted = tool.decrypt(vault, passwords, policy)
    except Refused:
        # Most vaults have no conflict.
        from ansible_vault_companions.envelopes import conflicts

        if conflicts.is_unmerged(vault):
            return None
        raise
    return [first_line.describe_vault(decrypted.label), decrypted.plaintext]


def _show_values(
    companion: str, path: str, target: str, passwords: list[Password], policy: Policy
) -> list[bytes] | None:
    """What is shown of any other file; None if it has no envelope."""
    # This takes longer to import than most vaults to decrypt.
    from ansible_vault_companions.showing import file_with_values

    parsed = file_with_values.read_envelopes(target)
    if not parsed.values:
        return None
    decrypt = partial(find_tool(companion, only_shows=True).decrypt, passwords=passwords, policy=policy)
    return file_with_values.show_envelopes(NAME, parsed, path, target, decrypt)


def _print_as_it_is(path: str, target: str, why: str, line: bytes = first_line.AS_IT_IS) -> None:
    """Prints a file piece by piece, since one that is not a vault may have any length. A message says why."""
    output.write_error(f"{NAME}: {escape(path)}: shown as it is: {why}")
    pieces = reading.read_pieces(target)
    # First, since there may be no file to show.
    beginning = next(pieces, b"")
    output.write_data(line + beginning)
    for piece in pieces:
        output.write_data(piece)


def _print_value(companion: str, key_path: str, target: str, passwords: list[Password], policy: Policy) -> None:
    from ansible_vault_companions.showing import file_with_values

    decrypt = partial(find_tool(companion).decrypt, passwords=passwords, policy=policy)
    output.write_data(file_with_values.show_value(reading.read_existing(target), key_path, decrypt))

"""Reads passwords, from files, from scripts and at the terminal, and says which of them the tool would refuse.

A password that cannot be used ends the run, but one of the settings is ignored if there is another.
"""

from __future__ import annotations

import os
import stat

from ansible_vault_companions.envelopes.header import MAGIC
from ansible_vault_companions.limits import LONGEST_PASSWORD
from ansible_vault_companions.output import write_error
from ansible_vault_companions.passwords import working_tree
from ansible_vault_companions.passwords.labels import is_allowed
from ansible_vault_companions.passwords.password import Password
from ansible_vault_companions.passwords.settings import expand_path
from ansible_vault_companions.passwords.sources import ASK_ID, NoAnswer, Purpose, Source, parse_vault_id
from ansible_vault_companions.quoting import escape
from ansible_vault_companions.refusals import Refused, describe_fault

NO_DESCRIPTORS = (
    "ansible-vault gets passwords through /dev/fd, which leads nowhere; mount /proc, or link /dev/fd to /proc/self/fd"
)


def read_passwords(name: str, sources: list[Source], purpose: Purpose) -> list[Password]:
    """Reads the passwords. Those that are ignored stay in the list, since the one to encrypt with is chosen among all
    that are named."""
    has_options = not all(source.is_setting for source in sources)
    passwords = [read_password(source, purpose, has_options) for source in sources]
    ignored = _list_ignored(passwords, purpose)
    for password in ignored:
        write_error(f"{name}: {escape(password.source.text)}: {password.fault}; it is ignored")
    for password in passwords:
        if password.fault and password not in ignored:
            raise password.make_refusal(password.fault)
    return passwords


def _list_ignored(passwords: list[Password], purpose: Purpose) -> list[Password]:
    """Those of the settings that cannot be used, if any other is left; or all that cannot, if the purpose says so."""
    faulty = [password for password in passwords if password.fault]
    if purpose.ignores_faulty:
        return faulty
    ignored = [password for password in faulty if password.source.is_setting]
    return ignored if len(ignored) < len(passwords) else []


def load_password(source: Source, purpose: Purpose) -> Password:
    """Reads a password that must be usable."""
    password = read_password(source, purpose)
    if password.fault:
        raise password.make_refusal(password.fault)
    return password


def load_typed_password(purpose: Purpose, unanswered: str) -> Password:
    """Asks for a password where nothing names one. Raises Refused with the text `unanswered` if nobody answers."""
    password = read_password(parse_vault_id(ASK_ID), purpose)
    if password.is_unanswered:
        raise Refused(unanswered)
    if password.fault:
        raise password.make_refusal(password.fault)
    return password


def read_password(source: Source, purpose: Purpose, has_options: bool = False) -> Password:
    """Keeps a password in memory, since `<(..)` can be read only once. To encrypt, the user has to type it twice. What
    git runs takes no file of the repository."""
    try:
        content = _read(source, purpose, has_options)
        descriptor = _keep_in_memory(content)
    except (Refused, OSError) as fault:
        why = describe_fault(fault, os.path.expanduser(os.path.expandvars(source.place)))
        return Password(source, b"", -1, why, is_unanswered=isinstance(fault, NoAnswer))
    _require_descriptors(descriptor)
    why = _find_fault(source.label, content)
    is_doubtful = source.is_prompt and not purpose.encrypts and not why
    return Password(source, content.strip(), descriptor, why, purpose if is_doubtful else None)


def _keep_in_memory(content: bytes) -> int:
    """The descriptor of a file in memory with this whole content. A limit on the length of files is an error."""
    descriptor = os.memfd_create("password")
    with open(descriptor, "wb", closefd=False) as file:
        file.write(content)
    return descriptor


def _require_descriptors(descriptor: int) -> None:
    """Refuses a system in which ansible-vault would find no password: it would say that a file is missing."""
    if not os.path.exists(f"/dev/fd/{descriptor}"):
        raise Refused(NO_DESCRIPTORS)


def _read(source: Source, purpose: Purpose, has_options: bool) -> bytes:
    if source.is_prompt:
        # Most passwords are in files, which are read without this module and that of scripts.
        from ansible_vault_companions.passwords import prompts

        return prompts.ask_password(source.place, source.label, purpose)
    path = expand_path(source.place)
    mode = os.stat(path).st_mode
    if purpose.for_git:
        working_tree.refuse_within(path)
    if stat.S_ISREG(mode) and mode & 0o111:
        if source.is_of_folder:
            working_tree.refuse_script(path, has_options)
        from ansible_vault_companions.passwords import scripts

        return scripts.run_script(path, source.written_label)[: LONGEST_PASSWORD + 1]
    working_tree.refuse_tracked(path)
    with open(path, "rb") as file:
        return file.read(LONGEST_PASSWORD + 1)


def _find_fault(label: str, content: bytes) -> str:
    """Why the tool would refuse a password, with the tool's words; empty if it would not."""
    if len(content) > LONGEST_PASSWORD:
        return f"a password file is longer than {LONGEST_PASSWORD} bytes"
    if content.startswith(b"#!"):
        return "a password file is a script"
    if content.startswith(MAGIC):
        return "a password file is itself a vault"
    if not content.strip():
        return "a password is empty"
    return "" if is_allowed(label) else "a vault id label is not allowed"

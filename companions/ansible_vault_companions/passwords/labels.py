"""What labels mean: which passwords may decrypt an envelope, which one encrypts, and which labels are allowed.

A label is a hint, not a proof: anybody can change it, or copy an envelope, without a password. So if several passwords
are given, all are tried, but only one with the envelope's label may encrypt its text again, or the text would get the
password that belongs to another label. With one password, or one that is the only one of the options, no other can be
meant.
"""

from __future__ import annotations

import os
from collections.abc import Iterable, Sequence

from ansible_vault_companions.envelopes.header import DEFAULT_LABEL, LABEL
from ansible_vault_companions.passwords.password import Password
from ansible_vault_companions.passwords.settings import Settings
from ansible_vault_companions.quoting import escape
from ansible_vault_companions.refusals import Refused

ANY_LABEL = "--any-label"
RELABEL = f"ansible-vault-rotate {ANY_LABEL}"
NONE_HAS_LABEL = "no password has the label {}, only {}"
SEVERAL = "several passwords could encrypt: {}; choose one with --encrypt-vault-id"


class Policy:
    """What labels mean to the passwords of a command line."""

    def __init__(
        self,
        requires_match: bool,
        any_label: bool,
        usual_label: str | None = None,
        only: bytes | None = None,
        has_options: bool = False,
    ) -> None:
        # Whether a password may decrypt only envelopes with its label.
        self.requires_match = requires_match
        # Whether any password may encrypt again what has another label; and the only one that may, if there is one.
        self.any_label = any_label
        self.only = only
        # The label that the settings choose for encryption.
        self.usual_label = usual_label
        # Whether an option names a password.
        self.has_options = has_options


# For what is not decrypted.
ANY = Policy(requires_match=False, any_label=True)


class Credential:
    """What encrypts: a password, and the label that the envelope gets. Only `choose_credential`, for something new, and
    `require_credential`, in place of an envelope, make one. So whoever has one has passed their checks, and what is
    merely decrypted has a password and a label, but no credential."""

    def __init__(self, password: Password, label: str) -> None:
        self.password = password
        self.label = label

    def __eq__(self, other: object) -> bool:
        return isinstance(other, Credential) and (self.password, self.label) == (other.password, other.label)

    def __hash__(self) -> int:
        return hash((self.password, self.label))


def make_policy(
    passwords: Iterable[Password], settings: Settings, any_label: bool, requires_match: bool = False
) -> Policy:
    """The policy for these passwords. Passwords that are all the same count as one, and options count more than the
    settings: these choose no password in place of one that an option names."""
    named = prefer_options(passwords)
    contents = {password.content for password in named}
    label = settings.find_encrypt_label()
    has_options = not all(password.source.is_setting for password in named)
    return Policy(
        requires_match or settings.requires_match() and not any_label,
        any_label,
        None if has_options and label and not list_with_label(named, label) else label,
        contents.pop() if len(contents) == 1 else None,
        has_options,
    )


def prefer_options(passwords: Iterable[Password]) -> list[Password]:
    """Those that options name, or else all."""
    every = list(passwords)
    return [password for password in every if not password.source.is_setting] or every


def order_to_try(passwords: Iterable[Password], label: str | None, policy: Policy) -> list[Password]:
    """The passwords that may be tried on an envelope with this label. Those with the same label come first. What has
    none is no envelope, as the tool says with any of them."""
    usable = [password for password in passwords if not password.fault]
    same = [password for password in usable if password.label == label]
    others = [password for password in usable if password.label != label]
    return same if policy.requires_match and label is not None else same + others


def list_with_label(passwords: Iterable[Password], label: str) -> list[Password]:
    """The passwords that have a label, even those that were ignored."""
    return [password for password in passwords if password.label == label]


def choose_credential(passwords: Sequence[Password], label: str | None = None, where: str = "") -> Credential:
    """What encrypts something new: the password with this label, or else the only one. One that an option names goes
    before those of the settings. Raises Refused if it cannot be used, since no other encrypts in its place; if several
    are left; or if none has the label."""
    chosen = prefer_options(list_with_label(passwords, label) if label else passwords)
    if label and not chosen:
        raise Refused(f"{where}{NONE_HAS_LABEL.format(escape(label), describe_labels(passwords))}")
    if not label and len(chosen) > 1:
        raise Refused(SEVERAL.format(describe_labels(chosen)))
    for password in chosen:
        password.require_usable()
    if len({password.content for password in chosen}) > 1:
        names = " and ".join(escape(password.source.text) for password in chosen)
        raise Refused(f"{names} have the label {escape(chosen[0].label)}; name only the password to encrypt with")
    return Credential(chosen[0], chosen[0].label)


def describe_labels(passwords: Iterable[Password]) -> str:
    return ", ".join(escape(password.label) for password in passwords)


def require_credential(
    password: Password, label: str, policy: Policy, where: str = "", is_same_text: bool = False
) -> Credential:
    """What encrypts in place of an envelope with this label: the password that decrypted it. Refuses one that the label
    does not allow. Unless the text stays the same, it also refuses, beside an option that names a password, one that
    only ./ansible.cfg names: that may be a stranger's, who knows it."""
    own = escape(password.label)
    if "@" in label:
        why = f"has an @, so no option can name it; give it another one with `{RELABEL}`"
        raise Refused(f"{where}its label {escape(label)} {why}")
    if label != password.label and not policy.any_label and password.content != policy.only:
        raise Refused(
            f"{where}its label is {escape(label)}{_explain_default(label)}, but {escape(password.source.text)}, a "
            f"password with the label {own}, decrypts it; unless somebody changed the label or copied the text here, "
            f"give it the label {own} with `{RELABEL}`, or accept it with {ANY_LABEL}"
        )
    if not is_same_text and policy.has_options and password.source.is_of_folder:
        raise Refused(
            f"{where}{escape(password.source.text)} decrypts it, which only ./ansible.cfg names; to encrypt with it, "
            "name it with an option, too"
        )
    return Credential(password, label)


def _explain_default(label: str) -> str:
    return ", that of every vault without one" if label == DEFAULT_LABEL else ""


def describe_attempts(label: str | None, passwords: Sequence[Password], policy: Policy) -> str:
    """For a message: which passwords were tried on an envelope that none decrypts, and what to do."""
    names = ", ".join(escape(password.source.text) for password in passwords) or "none: no password has its label"
    has = f"label {escape(label)}" if label else "no label"
    others = "; --require-id-match or vault_id_match forbids the others" if policy.requires_match else ""
    return f"({has}; tried {names}{others}): name its password with --vault-id LABEL@SOURCE"


def is_allowed(label: str) -> bool:
    """Whether the tool accepts a label: one that a header can have, as it is."""
    return LABEL.fullmatch(os.fsencode(label)) is not None and ";" not in label and label == label.strip(" ")

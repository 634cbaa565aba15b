"""Chooses the password that encrypts what an edit writes.

A text that may change keeps the password that decrypted it, if its label allows that. Something new gets the one that
the user has chosen; else that of the file's values, if they all have one; else the only one. Unless its label is
chosen, none of the settings takes the place of one that an option names. If that leaves several, the user chooses now.
"""

from __future__ import annotations

import os
from contextlib import suppress
from typing import NamedTuple

from ansible_vault_companions.passwords import prompts
from ansible_vault_companions.passwords.labels import Credential, choose_credential, describe_labels, prefer_options
from ansible_vault_companions.passwords.password import Password
from ansible_vault_companions.quoting import escape
from ansible_vault_companions.refusals import Refused

GETS = "new values get the label {}; --encrypt-vault-id chooses another"
IS_ASKED = "the label of a new value will be asked for; --encrypt-vault-id chooses one"
IS_REFUSED = "new values will be refused: {}"
UNCLEAR = "{} may be new, changed or moved, and the password depends on which; save one change at a time"
SIDES_DIFFER = "{} has different passwords in the two sides; choose one with --encrypt-vault-id"


class Choice(NamedTuple):
    """What there is to choose from."""

    passwords: list[Password]
    # The label that the user has chosen for this run, and the one of the settings. That is for what is new alone.
    chosen: str | None = None
    usual: str | None = None
    # The credential of the file's values, if they all have one; and whether the file has a conflict.
    credential_of_values: Credential | None = None
    in_conflict: bool = False

    @property
    def label(self) -> str | None:
        """The label of something new."""
        return self.chosen or self.usual

    @property
    def candidates(self) -> list[Password]:
        """Those for something new if no label is chosen."""
        return prefer_options(self.passwords)

    def find_credential(self, where: str = "") -> Credential | None:
        """The credential of something new; None if there are several passwords and nobody has chosen one. Refuses a
        chosen one that cannot be used."""
        of_values = self.credential_of_values
        contents = {password.content for password in self.candidates}
        if self.label is None and of_values and of_values.password.content in contents:
            return of_values
        if self.label is None and len(self.candidates) > 1:
            return None
        return choose_credential(self.passwords, self.label, where)

    def list_new_passwords(self) -> list[Password]:
        """The passwords that something new may get; none if the chosen one cannot be used."""
        with suppress(Refused):
            only = self.find_credential()
            return [only.password] if only else self.candidates
        return []

    def choose_credential(self, name: str, place: str) -> Credential:
        """The credential for what has this name and place."""
        credential = self.find_credential(f"{place} is new, and ") or self._ask(name, place)
        credential.password.confirm()
        return credential

    def settle_credential(self, name: str, place: str) -> Credential:
        """The credential for what may be one of several texts with several passwords. In a conflict, the chosen label
        is also for that."""
        if not self.in_conflict:
            raise Refused(UNCLEAR.format(place))
        if self.chosen is None:
            raise Refused(SIDES_DIFFER.format(place))
        return self.choose_credential(name, place)

    def _ask(self, name: str, place: str) -> Credential:
        """The credential with the label that the user chooses at a terminal."""
        labels = [*dict.fromkeys(password.label for password in self.candidates)]
        if len(labels) == 1 or not os.isatty(0):
            has = describe_labels(self.candidates)
            raise Refused(f"{place} is new; of the labels {has}, choose one with --encrypt-vault-id")
        label = prompts.ask_choice(f"Label to encrypt {name} with", labels)
        return choose_credential(self.candidates, label)

    def describe(self) -> str:
        """What a new value gets."""
        try:
            credential = self.find_credential()
        except Refused as fault:
            return IS_REFUSED.format(fault)
        return GETS.format(escape(credential.label)) if credential else IS_ASKED

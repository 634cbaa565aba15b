"""The passwords that a command line calls for, and the words that give them to ansible-vault."""

from __future__ import annotations

from argparse import Namespace

from ansible_vault_companions.alias.command_line import ENCRYPT_ID, ENCRYPTING, MATCH, NAME, REKEY, list_passed_on
from ansible_vault_companions.alias.standard_input import takes_input
from ansible_vault_companions.passwords import loading, options
from ansible_vault_companions.passwords.labels import ANY_LABEL, choose_credential
from ansible_vault_companions.passwords.password import Password
from ansible_vault_companions.passwords.sources import Purpose

NO_NEW = "no new password is given: name one with --new-vault-id or --new-vault-password-file, or use a terminal"


class Call:
    """The command line, and the passwords in the order in which they are tried."""

    def __init__(self, args: Namespace) -> None:
        encrypts = args.command in ENCRYPTING
        self.args = args
        self.purpose = Purpose(encrypts, reads_lines=not takes_input(args))
        named, policy = options.load_named(NAME, args, self.purpose)
        self.policy = policy
        # The label that chooses the password to encrypt with.
        self.label: str | None = getattr(args, "encrypt_vault_id", None)
        self.new = self._choose_new(named) if args.command == REKEY else []
        # The one to encrypt with is chosen among all that are named, and refused if it was ignored.
        usable = [password for password in named if not password.fault]
        self.passwords = [choose_credential(named, self.label or policy.usual_label).password] if encrypts else usable
        self.needs_match = policy.requires_match and not encrypts

    def _choose_new(self, old: list[Password]) -> list[Password]:
        """The new password of options, else the one of the settings with the chosen label, else a typed one. Where an
        option names an old one, the settings choose none."""
        candidates = options.load_new_passwords(self.args, self.purpose.reads_lines)
        label = self.label
        if not candidates:
            of_settings = [password for password in old if password.source.is_setting]
            label = label or (self.policy.usual_label if of_settings == old else None)
            candidates = of_settings if label else []
        if not candidates:
            candidates = [loading.load_typed_password(Purpose(True, self.purpose.reads_lines), NO_NEW)]
        chosen = choose_credential(candidates, label, "of the new passwords, ").password
        chosen.confirm()
        return [chosen]

    @property
    def new_label(self) -> str:
        """The label of what this encrypts."""
        return [*self.new, *self.passwords][0].label

    def words(self, passwords: list[Password], *without: str) -> list[str]:
        """The words that give the tool the command, these passwords and the options that are passed on."""
        return [
            self.args.command,
            *(password.make_option() for password in passwords),
            *(password.make_option("--new-vault-id") for password in self.new),
            *([MATCH] if self.needs_match and not self.args.require_id_match else []),
            *list_passed_on(self.args, (ENCRYPT_ID, ANY_LABEL, *without)),
        ]

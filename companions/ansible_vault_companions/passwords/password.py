"""A password: what was read from a source, and whether it may encrypt."""

from __future__ import annotations

from ansible_vault_companions.passwords.sources import Purpose, Source
from ansible_vault_companions.quoting import escape
from ansible_vault_companions.refusals import Refused


class Password:
    """What was read from a source. Nothing of it changes, except whether it may be mistyped."""

    def __init__(
        self,
        source: Source,
        content: bytes,
        descriptor: int,
        fault: str = "",
        doubt: Purpose | None = None,
        is_unanswered: bool = False,
    ) -> None:
        self.source = source
        self.label = source.label
        # What the tool takes for the password, and the file in memory that contains it.
        self.content = content
        self.descriptor = descriptor
        # Why it cannot be used; empty if it can.
        self.fault = fault
        # Whether that is so since nobody has answered the question for it.
        self.is_unanswered = is_unanswered
        # How to ask again, if it was typed once and has decrypted nothing yet, so that it may be mistyped.
        self._doubt = doubt

    def make_option(self, name: str = "--vault-id", label: str | None = None) -> str:
        """The word that names it to the tool, with its own label or another one."""
        return f"{name}={self.label if label is None else label}@/dev/fd/{self.descriptor}"

    def make_refusal(self, why: str) -> Refused:
        return Refused(f"{escape(self.source.text)}: {why}")

    def require_usable(self) -> None:
        """Refuses to encrypt with one that was ignored: no other password takes its place."""
        if self.fault:
            raise self.make_refusal(f"{self.fault}, and no other password encrypts in its place")

    def trust(self) -> None:
        self._doubt = None

    def confirm(self) -> None:
        """Asks again for one that is in doubt, before it encrypts."""
        if self._doubt:
            # Most passwords are not typed.
            from ansible_vault_companions.passwords import prompts

            if not prompts.confirm_password(self.source.place, self.label, self.content, self._doubt):
                raise self.make_refusal(prompts.DIFFER)
            self.trust()

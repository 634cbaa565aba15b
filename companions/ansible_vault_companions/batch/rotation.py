"""Re-encrypts the envelopes of files with new passwords, according to their labels, including those in plaintexts.

`tool` refuses a new envelope that is not whole, and a file is read again before it is written: only its envelopes may
differ. Nothing is decrypted again.
"""

from __future__ import annotations

import os
from contextlib import suppress
from dataclasses import dataclass
from typing import Iterable

from ansible_vault_companions.batch.each_envelope import EnvelopeResult, Work, change_envelopes
from ansible_vault_companions.batch.places import Place
from ansible_vault_companions.batch.report import FAILED, KEPT, OTHER_LABEL, ROTATED, TO_BE_ROTATED, Report, Total
from ansible_vault_companions.envelopes import file_kinds
from ansible_vault_companions.envelopes.node import Node
from ansible_vault_companions.envelopes.parsed_text import ParsedText, parse_envelopes
from ansible_vault_companions.files import replacing
from ansible_vault_companions.files.searching import FoundFile
from ansible_vault_companions.batch.textconv_passwords import textconv_lacks
from ansible_vault_companions.passwords.labels import Credential
from ansible_vault_companions.passwords.password import Password
from ansible_vault_companions.quoting import escape
from ansible_vault_companions.refusals import Refused
from ansible_vault_companions.tool import DAMAGED, Decryption, NotDecrypted

NOT_IN_GIT = "git diff in this clone lacks the new password: give it to ansible-vault-hook --install, too"
# A placeholder for the new envelope in a dry run.
DRY = b"$ANSIBLE_VAULT;1.1;AES256\n%s\n" % (b"61" * 16)


@dataclass
class Rotation(Work):
    """Rotates files with these passwords."""

    old: list[Password]
    # The new passwords by their labels; and the one that also replaces the old ones of other labels, if that is wanted.
    new: dict[str, Credential]
    new_for_any: Credential | None
    is_dry: bool

    def finish_file(
        self, found: FoundFile, path: str, parsed: ParsedText, results: Iterable[EnvelopeResult], report: Report
    ) -> bytes | None:
        after = change_envelopes(parsed, results, path, report)
        fault = file_kinds.find_fault(parsed, found.names)
        # In what is no YAML, all that has digits was found.
        if fault and not parsed.values:
            report.add_file(FAILED, path, fault)
        return after if after != parsed.data else None

    def write_file(self, found: FoundFile, after: bytes, before: bytes) -> None:
        if self.is_dry:
            replacing.check_replaceable(found.target)
        else:
            replacing.replace(found.target, after, before)

    def list_lines(self, found: FoundFile, report: Report) -> list[str]:
        count = report.count(ROTATED, TO_BE_ROTATED)
        if not count:
            return []
        path = found.paths[0]
        target = f" ({escape(found.target)})" if os.path.islink(path) else ""
        what = f"{count} " if count > 1 else ""
        return [f"{escape(path)}{target}: {what}{'would be ' if self.is_dry else ''}rotated"]

    def process_envelope(self, value: Node, place: Place, report: Report, is_prose: bool) -> bytes | None:
        label = value.label
        if label is None and is_prose:
            return None
        if label is None:
            raise Refused(f"{DAMAGED}: its first line is malformed")
        new = self.new.get(label)
        if new:
            report.labels.add(label)
            # Those with its label are tried first, so most need a single try.
            result = self.decrypt(value, [*self.old, new.password], may_fail=is_prose)
        else:
            result = self._decrypt_other(value, is_prose)
            new = self.new_for_any if result else None
        if not new:
            report.add_envelope(OTHER_LABEL, place)
        if not result:
            report.labels.clear()
            return None
        return self._encrypt_again(result, new, place, report)

    def _decrypt_other(self, value: Node, is_prose: bool) -> Decryption | None:
        """What has another label. It stays if no old password decrypts it. If only what is in its plaintext may change,
        it is decrypted for that alone."""
        if not self.new_for_any:
            passwords = [password for password in self.old if password.label == value.label]
            return self.decrypt(value, passwords, may_fail=True) if value.is_whole else None
        try:
            return self.decrypt(value, self.old, may_fail=is_prose)
        except NotDecrypted:
            return None

    def _encrypt_again(self, result: Decryption, new: Credential | None, place: Place, report: Report) -> bytes | None:
        """An envelope with its new password, or with new ones in its plaintext; None if it stays."""
        if self.new_for_any:
            report.labels.add(self.new_for_any.label)
            credential = self.new_for_any
        else:
            # Required even if the new one takes its place, which is only for what has the right label.
            own = result.require_credential(is_same_text=True)
            credential = new or own
        after = self._within(result.plaintext, place, report)
        keeps = (result.password.content, result.label) == (credential.password.content, credential.label)
        if new:
            done = TO_BE_ROTATED if self.is_dry else ROTATED
            report.add_envelope(KEPT if keeps else done, place)
        if keeps and after == result.plaintext:
            return None
        return DRY if self.is_dry else self.tool.encrypt_again(result.envelope, after, credential)

    def _within(self, plaintext: bytes, place: Place, report: Report) -> bytes:
        """The plaintext of an envelope, with the envelopes in it rotated."""
        parsed = parse_envelopes(plaintext)
        if parsed.is_vault:
            raise Refused("its plaintext is itself a vault, which ansible-vault does not encrypt; decrypt it first")
        return self.change_plaintext(parsed, place, report)


def list_summary(total: Total, is_dry: bool, new_files: list[str]) -> list[str]:
    """The last lines that ansible-vault-rotate prints: the counts, and whether `git diff` lacks one of the new password
    files, if something was rotated."""
    lines = [_describe_counts(total, is_dry)]
    # The rotation is done, even if git cannot be asked.
    with suppress(Refused, OSError):
        if total.counts[ROTATED] and textconv_lacks(new_files):
            lines.append(NOT_IN_GIT)
    return lines


def _describe_counts(total: Total, is_dry: bool) -> str:
    counts = total.counts
    done = f"{counts[TO_BE_ROTATED]} to be rotated" if is_dry else f"{counts[ROTATED]} rotated"
    kept = f"{counts[KEPT]} already under the new password"
    return f"{done}, {kept}, {total.count_others()}, {counts[FAILED]} failed"

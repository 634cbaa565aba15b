"""Tells which password decrypts each envelope of a file, and what is wrong with the file."""

from __future__ import annotations

from dataclasses import dataclass
from typing import Iterable

from ansible_vault_companions.batch.each_envelope import EnvelopeResult, Work, change_envelopes
from ansible_vault_companions.batch.places import Place
from ansible_vault_companions.batch.report import DECRYPTED, FAILED, LISTED, OTHER_LABEL, Report, Total
from ansible_vault_companions.envelopes import conflicts, damage, file_kinds
from ansible_vault_companions.envelopes.node import Node
from ansible_vault_companions.envelopes.parsed_text import ParsedText, parse_envelopes
from ansible_vault_companions.files.searching import FoundFile
from ansible_vault_companions.git.pathspecs import make_pathspec
from ansible_vault_companions.passwords.password import Password
from ansible_vault_companions.quoting import escape
from ansible_vault_companions.refusals import Refused
from ansible_vault_companions.tool import Decryption

RESOLVE = "resolve with ansible-vault-edit; or set up ansible-vault-merge, and run `git checkout --merge -- {}`"


@dataclass
class Check(Work):
    """Checks files with these passwords; or lists what is in them, without any."""

    passwords: list[Password]
    is_list: bool
    # Only envelopes with these labels are decrypted; if the list is empty, all are.
    labels: list[str]
    # The paths that git's attributes mark.
    marked: set[str]
    names_values = True

    def finish_file(
        self, found: FoundFile, path: str, parsed: ParsedText, results: Iterable[EnvelopeResult], report: Report
    ) -> None:
        why = file_kinds.find_fault(parsed, found.names)
        try:
            change_envelopes(parsed, results, path, report)
        except Refused as fault:
            why = why or str(fault)
        if damage.is_unmerged(parsed):
            why = f"{conflicts.UNMERGED}; {RESOLVE.format(make_pathspec(path))}"
        if path in self.marked and parsed.data.strip() and not (why or report.count(FAILED)):
            why = damage.find_unencrypted(parsed)
        if why:
            report.add_file(FAILED, path, why)

    def list_lines(self, found: FoundFile, report: Report) -> list[str]:
        return [entry.write_text(self.names_values) for entry in report.entries if entry.result in (DECRYPTED, LISTED)]

    def process_envelope(self, value: Node, place: Place, report: Report, is_prose: bool) -> bytes | None:
        """The envelope itself. Putting it back shows whether a rotation could put another one in its place."""
        label = value.label
        same = value.text if value.is_whole and not is_prose else None
        if label is not None and self.labels and label not in self.labels:
            report.add_envelope(OTHER_LABEL, place)
            return same
        report.labels.add(label)
        if self.is_list:
            report.add_envelope(LISTED, place)
            return same
        result = self.decrypt(value, self.passwords, may_fail=is_prose)
        if result:
            self._check_plaintext(place, result, report)
        else:
            report.labels.clear()
        return same

    def _check_plaintext(self, place: Place, result: Decryption, report: Report) -> None:
        try:
            result.require_credential(is_same_text=True)
            report.add_envelope(DECRYPTED, place, f"decrypted by {escape(result.password.source.text)}")
        except Refused as fault:
            report.add_envelope(FAILED, place, str(fault))
        if conflicts.is_unmerged(result.plaintext):
            report.add_envelope(FAILED, place, f"its plaintext {conflicts.UNMERGED}")
        self.change_plaintext(parse_envelopes(result.plaintext), place, report)


def summarize(total: Total, is_list: bool, has_labels: bool) -> str:
    """The last line that ansible-vault-check prints. Envelopes with other labels count if labels were given."""
    others = f", {total.count_others()}" if has_labels else ""
    done = f"{total.counts[LISTED]} listed" if is_list else f"{total.counts[DECRYPTED]} decrypted"
    return f"{done}, {total.counts[FAILED]} failed{others}"

"""Check and rotate take each envelope of a file in turn: decrypt it, and go on after one that fails."""

from __future__ import annotations

from dataclasses import dataclass
from typing import Iterable, Optional, Tuple

from ansible_vault_companions.batch.places import Place, find_place
from ansible_vault_companions.batch.report import FAILED, KEPT, ROTATED, TO_BE_ROTATED, Report
from ansible_vault_companions.envelopes.node import Node
from ansible_vault_companions.envelopes.parsed_text import ParsedText
from ansible_vault_companions.files.searching import FoundFile
from ansible_vault_companions.passwords.labels import Policy
from ansible_vault_companions.passwords.password import Password
from ansible_vault_companions.refusals import Refused
from ansible_vault_companions.tool import Decryption, NotDecrypted, Tool


# The text that takes the place of an envelope, None if it stays; and the report on it.
EnvelopeResult = Tuple[Optional[bytes], Report]


@dataclass
class Work:
    """What is done with each envelope of a file, and with those in its plaintext."""

    tool: Tool
    # What labels mean to the passwords.
    policy: Policy
    # Whether messages name values and labels.
    names_values = False
    # How many envelopes are done. Threads count them for the user to see, and two of them may once count as one.
    done = 0

    def finish_file(
        self, found: FoundFile, path: str, parsed: ParsedText, results: Iterable[EnvelopeResult], report: Report
    ) -> bytes | None:
        """Reports on a file when its envelopes are done. Returns its new content; None if it stays."""
        raise NotImplementedError

    def write_file(self, found: FoundFile, after: bytes, before: bytes) -> None:
        """Writes new content to a file."""
        raise NotImplementedError

    def list_lines(self, found: FoundFile, report: Report) -> list[str]:
        """What standard output says of a file."""
        raise NotImplementedError

    def process_envelope(self, value: Node, place: Place, report: Report, is_prose: bool) -> bytes | None:
        """The text that takes the place of an envelope, in a thread; None if it stays."""
        raise NotImplementedError

    def decrypt(self, value: Node, passwords: list[Password], may_fail: bool) -> Decryption | None:
        """An envelope in plaintext. If that may fail, None for one that is damaged or that nothing decrypts."""
        try:
            return self.tool.decrypt(value.require_readable(), passwords, self.policy)
        except Refused as fault:
            if may_fail and (isinstance(fault, NotDecrypted) or not value.is_whole):
                return None
            raise

    def attempt_envelope(self, value: Node, place: Place, is_prose: bool = False) -> EnvelopeResult:
        """What takes the place of an envelope. What fails stays, and is reported."""
        report = Report()
        try:
            return self.process_envelope(value, place, report, is_prose), report
        except Refused as fault:
            # Changes within it are not written either.
            report.remove(ROTATED, TO_BE_ROTATED, KEPT)
            report.add_envelope(FAILED, place, str(fault))
            return None, report
        finally:
            self.done += 1

    def change_plaintext(self, parsed: ParsedText, place: Place, report: Report) -> bytes:
        """The plaintext of an envelope with the texts that take the places of the envelopes in it."""
        results = (self.attempt_envelope(value, find_place(value, place.path, place)) for value in parsed.envelopes)
        return change_envelopes(parsed, results, place.path, report, outer=place)


def change_envelopes(
    parsed: ParsedText, results: Iterable[EnvelopeResult], path: str, report: Report, outer: Place | None = None
) -> bytes:
    """The data of a file, or of an envelope's plaintext, with what came of its envelopes, in their order."""
    if parsed.hides_envelope:
        report.add_hidden(path, outer)
    new: dict[Node, bytes] = {}
    for value, (text, own) in zip(parsed.envelopes, results):
        report.add(own)
        if text is not None:
            new[value] = text
    return parsed.replace_envelopes(new) if new else parsed.data

"""Check and rotate take each file in turn: read it, have the work on it done, and print what is reported."""

from __future__ import annotations

import os
from collections import deque
from concurrent.futures import Executor, Future, wait
from contextlib import contextmanager
from dataclasses import dataclass, field
from typing import AbstractSet, Collection, Iterator

from ansible_vault_companions import parallel, refusals
from ansible_vault_companions.batch.each_envelope import EnvelopeResult, Work
from ansible_vault_companions.batch.places import find_place
from ansible_vault_companions.batch.report import FAILED, ROTATED, SKIPPED, TO_BE_ROTATED, Entry, Report, Total
from ansible_vault_companions.envelopes import detection, file_kinds
from ansible_vault_companions.envelopes.parsed_text import ParsedText, parse_envelopes
from ansible_vault_companions.envelopes.pointers import Pointer
from ansible_vault_companions.files import replacing
from ansible_vault_companions.files.searching import FoundFile, Search
from ansible_vault_companions.output import Progress, write_error, write_line
from ansible_vault_companions.quoting import escape
from ansible_vault_companions.refusals import Refused

# How many files may be done before the next one is reported.
AHEAD = 32
LABEL_NOT_FOUND = "no vault or value has the label {}{}"


@dataclass
class Begun:
    """A file whose envelopes are worked on."""

    file: FoundFile
    # The path that messages have: the first one or, if one of them is marked, that.
    path: str
    report: Report = field(default_factory=Report)
    # The file, if there is more to do than to report it; and the results for its envelopes.
    parsed: ParsedText | None = None
    results: list[Future[EnvelopeResult]] = field(default_factory=list)


class Runner:
    """Has a companion's work done on files, and adds the reports up."""

    def __init__(
        self, name: str, work: Work, named: list[str], is_json: bool, marked: AbstractSet[str] = frozenset()
    ) -> None:
        self.name = name
        self.work = work
        # The paths of the command line. Files that are found below them may vanish.
        self.named = named
        # Whether standard output gets each result as an object, and nothing else.
        self.is_json = is_json
        # The paths of files that must be encrypted.
        self.marked = marked
        self.total = Total()
        # The files that are worked on.
        self.begun: deque[Begun] = deque()

    def process_files(self, files: list[FoundFile]) -> None:
        """Works on each file, and reports on them in order."""
        number = 0
        progress = Progress(lambda: f"file {number:,} of {len(files):,}, {self.work.done:,} values")
        with progress, parallel.open_pool() as pool:
            # Most files have no envelope.
            for number, found in enumerate(files, 1):
                progress.show()
                with _naming_file(found):
                    self._begin(found, pool)
                if len(self.begun) > AHEAD:
                    self._finish_first(progress)
            while self.begun:
                self._finish_first(progress)

    def _begin(self, found: FoundFile, pool: Executor) -> None:
        """Reads a file, and gives its envelopes to threads. One without any need not be reported."""
        begun = Begun(found, next((path for path in found.paths if path in self.marked), found.paths[0]))
        try:
            data = detection.read_envelope_file(found.target)
        except (Refused, OSError) as fault:
            begun.report = self._report_unread(found, fault)
            self.begun.append(begun)
            return
        is_marked = begun.path in self.marked
        if not (found.refusal or is_marked or detection.may_have_envelope(data)):
            return
        self.begun.append(begun)
        parsed = parse_envelopes(data, is_prose=file_kinds.is_prose(found.target) and not is_marked)
        if found.refusal:
            begun.report = self._report_refused(found, parsed)
            return
        begun.parsed = parsed
        for value in parsed.envelopes:
            place = find_place(value, begun.path, None)
            begun.results.append(pool.submit(self.work.attempt_envelope, value, place, parsed.is_prose))

    def _report_unread(self, found: FoundFile, fault: Exception) -> Report:
        """The report on a file that cannot be read."""
        report = Report()
        if self._is_failure(found, fault):
            path = found.paths[0]
            report.add_file(FAILED, path, found.refusal or refusals.describe_fault(fault, found.target))
        elif found.refusal or isinstance(fault, Pointer):
            report.add_file(SKIPPED, found.paths[0], found.refusal or str(fault))
        return report

    def _is_failure(self, found: FoundFile, fault: Exception) -> bool:
        """Whether it is a failure that a file cannot be read. It is none that one was found and is gone, or, unless it
        is marked, that it is a pointer of git-lfs."""
        if isinstance(fault, Pointer):
            return self._is_marked(found)
        return not _is_gone(found.paths[0], fault) or any(path in self.named for path in found.paths)

    def _is_marked(self, found: FoundFile) -> bool:
        return not self.marked.isdisjoint(found.paths)

    def _report_refused(self, found: FoundFile, parsed: ParsedText) -> Report:
        """The report on a link that leads out: a failure if there is something to do in its file."""
        path = found.paths[0]
        fails = self._is_marked(found) or parsed.envelopes or file_kinds.find_fault(parsed, found.names)
        report = Report()
        report.add_file(FAILED if fails else SKIPPED, path, found.refusal)
        return report

    def _finish_first(self, progress: Progress) -> None:
        begun = self.begun.popleft()
        while wait(begun.results, progress.pause).not_done:
            progress.show()
        if begun.parsed:
            with _naming_file(begun.file):
                self._finish(begun, begun.parsed)
        if not self.is_json:
            for line in self.work.list_lines(begun.file, begun.report):
                write_line(line)
        self.total.add(begun.report)
        self._print(begun.report.entries)

    def _finish(self, begun: Begun, parsed: ParsedText) -> None:
        """Writes a file's new content. A failure is reported, so other files are still processed."""
        results = (result.result() for result in begun.results)
        try:
            after = self.work.finish_file(begun.file, begun.path, parsed, results, begun.report)
            if after is not None:
                self.work.write_file(begun.file, after, parsed.data)
        except replacing.NotSynced as fault:
            begun.report.add_file(FAILED, begun.path, str(fault))
        except (Refused, OSError) as fault:
            # Nothing is written, so no envelope is changed.
            begun.report.remove(ROTATED, TO_BE_ROTATED)
            begun.report.add_file(FAILED, begun.path, refusals.describe_fault(fault, begun.file.target))

    def _print(self, entries: list[Entry]) -> None:
        for entry in entries:
            if self.is_json:
                write_line(entry.write_json())
            elif entry.result in (SKIPPED, FAILED):
                write_error(f"{self.name}: {entry.write_text(self.work.names_values)}")

    def report_unsearched(self, search: Search) -> None:
        """Names each link to a directory that is not searched. That is no failure."""
        self._print([Entry(SKIPPED, why, path) for path, why in search.list_unsearched().items()])

    def report_missing(self, labels: Collection[str], others: str = "") -> None:
        """Names each of these labels that no envelope has, as a failure, and says this of those with others."""
        others = others if self.total.others else ""
        missing = sorted(set(labels) - self.total.labels)
        report = Report(
            [Entry(FAILED, LABEL_NOT_FOUND.format(escape(label), others), label=label) for label in missing]
        )
        self.total.add(report)
        self._print(report.entries)


@contextmanager
def _naming_file(found: FoundFile) -> Iterator[None]:
    """A context that gives a lack of memory the name of a file."""
    try:
        yield
    except (MemoryError, RecursionError) as fault:
        refusals.name_file(found.paths[0], fault)
        raise


def _is_gone(path: str, fault: Exception) -> bool:
    """Whether a file is no longer there, or a file is in the place of a directory above it."""
    return isinstance(fault, FileNotFoundError) or isinstance(fault, NotADirectoryError) and not os.path.lexists(path)

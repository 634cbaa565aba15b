"""What you save in an edit is written to the file, or else kept: in an encrypted copy, or at worst in plaintext.

If you save nothing, the file stays, and a new vault is made only if it may be empty.
"""

from __future__ import annotations

import os
from collections.abc import Callable
from dataclasses import dataclass

from ansible_vault_companions import refusals, signals
from ansible_vault_companions.editing.drafts import Draft
from ansible_vault_companions.editing.editor import describe_signal, run_editor
from ansible_vault_companions.editing.private_directory import PrivateDirectory
from ansible_vault_companions.editing.rescue_copies import Copy, save_copy
from ansible_vault_companions.editing.single_value import A_VAULT
from ansible_vault_companions.envelopes import conflicts
from ansible_vault_companions.envelopes.header import MAGIC
from ansible_vault_companions.files import reading, replacing
from ansible_vault_companions.passwords import prompts
from ansible_vault_companions.quoting import escape
from ansible_vault_companions.refusals import Refused
from ansible_vault_companions.tool import Tool

# What is said of an edit that has changed nothing, and of a new vault without a text.
TO_WAIT = "if the editor returned at once, give it an option to wait, such as `code --wait`"
AS_BEFORE, EMPTY = f"nothing was changed; {TO_WAIT}", f"the new vault is empty; {TO_WAIT}"
UNCHANGED, WRITTEN = "nothing was changed", "what you saved is in the file"
NO_FILE = "the editor left no file"
NO_COPY = "an encrypted copy cannot be kept"
SEVERAL = "its text has several passwords, or may have, and none of them may read all of it"
RESCUED = "what you saved is encrypted in {}\n--resume opens it, --discard removes it"


@dataclass
class Outcome:
    """What came of an edit, as far as it is known."""

    # Why it ended otherwise than planned; empty if it did not.
    why: str = ""
    # Where what was saved is, or that nothing was; empty if another part says it, or nobody knows yet.
    where: str = ""
    # What was saved, once it is elsewhere than in the private directory.
    text: bytes | None = None
    # What is left there.
    left: str = ""

    def describe(self) -> str:
        """All of it, for a message."""
        return "; ".join(filter(None, (self.why, self.where, self.left)))


@dataclass
class Edit:
    """An edit of one file. Signals must be postponed, until a message has said what became of what was saved."""

    tool: Tool
    draft: Draft
    # As on the command line.
    path: str
    # The copy whose text it begins with.
    resumed: Copy | None
    # Prints what is to be said of the file.
    say: Callable[[str], None]

    def change_file(self, allows_empty: bool) -> int:
        """Runs the editor and puts its text into the file. If nothing was saved, makes an empty vault if that is
        allowed. Returns the exit status."""
        outcome = Outcome()
        folder = PrivateDirectory(self.path, self.resumed.text if self.resumed else self.draft.plaintext)
        try:
            try:
                self._run_editor(folder.file, outcome)
            finally:
                outcome.left = folder.remove(outcome.text)
            if outcome.why or outcome.left:
                self.say(outcome.describe())
                signals.end_by_signal()
                return 1
        # Whatever fails before that is said.
        except BaseException as failed:
            if not outcome.describe():
                raise
            raise Refused(f"{_describe_failure(failed, self.path)}; {outcome.describe()}") from None
        if outcome.where == UNCHANGED:
            self._leave_unchanged(allows_empty)
        return 0

    def _leave_unchanged(self, allows_empty: bool) -> None:
        """Leaves the file as it was, or makes an empty vault if there is none and that is allowed."""
        draft = self.draft
        if conflicts.is_unmerged(draft.plaintext):
            raise Refused(conflicts.STILL)
        if draft.content is not None or not allows_empty:
            self.say(AS_BEFORE)
            return
        content, notes = draft.encrypt(self.tool, draft.plaintext)
        replacing.replace(draft.target, content, before=None)
        for note in (EMPTY, *notes):
            self.say(note)

    def _run_editor(self, path: str, outcome: Outcome) -> None:
        """Runs the editor on the private file until its text is stored, or is not to be. Whatever else ends the edit
        leaves the text in that file."""
        while True:
            outcome.why = run_editor(path)
            text = reading.read(path)
            if text is None or self.draft.is_as_it_was(text):
                # Even the directory may be gone: logging out removes files in memory.
                outcome.why = outcome.why or (NO_FILE if text is None else "")
                outcome.where, outcome.text = UNCHANGED, text
                return
            if outcome.why:
                self._rescue(text, outcome)
                return
            try:
                notes = self._put_back(text)
            except replacing.NotSynced as failed:
                outcome.why, outcome.text = str(failed), text
                return
            except BaseException as failed:
                outcome.why = _describe_failure(failed, self.path)
                if isinstance(failed, Refused) and _opens_again(self.path, outcome.why):
                    continue
                self._rescue(text, outcome)
                return
            outcome.where, outcome.text = WRITTEN, text
            for note in notes:
                self.say(note)
            if self.resumed:
                _remove_copy(self.resumed, outcome)
            return

    def _put_back(self, text: bytes) -> list[str]:
        """Encrypts a text into the file, and returns what is to be said of it."""
        if text.startswith(MAGIC):
            raise Refused(A_VAULT)
        with signals.Arrival():
            content, notes = self.draft.encrypt(self.tool, text)
        if content != self.draft.content:
            replacing.replace(self.draft.target, content, self.draft.content)
        return notes

    def _rescue(self, text: bytes, outcome: Outcome) -> None:
        """Keeps a text that is not put back. If no copy is possible, the outcome says why."""
        draft = self.draft
        try:
            if draft.credential is None:
                raise Refused(SEVERAL)
            copy = save_copy(self.tool, draft.credential, draft.target, draft.plaintext, text, self.resumed)
        except Exception as failed:
            outcome.why += f"; {NO_COPY}: {_describe_failure(failed, self.path)}"
            return
        outcome.where, outcome.text = RESCUED.format(escape(copy)), text


def _describe_failure(failed: BaseException, path: str) -> str:
    """Why something failed. Python's own exceptions for too little memory have no text."""
    if isinstance(failed, signals.Stopped):
        return describe_signal()
    if isinstance(failed, (Refused, OSError, MemoryError, RecursionError)):
        return refusals.describe_fault(failed, path) or type(failed).__name__
    return refusals.describe_bug(failed)


def _opens_again(path: str, why: str) -> bool:
    """Whether the user, asked at the terminal, wants to correct the saved text."""
    try:
        with signals.Arrival():
            return prompts.ask_consent(f"{escape(path)}: {why}. Open the editor again?")
    # A signal arrived, or the terminal is gone.
    except (signals.Stopped, Refused, OSError):
        return False


def _remove_copy(copy: Copy, outcome: Outcome) -> None:
    """Removes the copy of what is in the file now. If it stays, the outcome says why."""
    try:
        os.unlink(copy.path)
    except OSError as fault:
        outcome.why, outcome.where = f"{WRITTEN}; its copy stays: {refusals.describe_fault(fault)}", ""

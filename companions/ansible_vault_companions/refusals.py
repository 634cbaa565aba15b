"""What companions refuse, and how messages say why."""

from __future__ import annotations

import os

from ansible_vault_companions.quoting import escape


class Refused(Exception):
    """Something is refused; the text says why. If the text comes from ansible-vault, so does the status."""

    def __init__(self, text: str, status: int = 1) -> None:
        super().__init__(text)
        self.status = status


def describe_fault(fault: BaseException, path: str = "") -> str:
    """The reason for a failure. It names the file that the system refused, unless that is the one at this path, with
    which the message begins anyway."""
    if not isinstance(fault, OSError) or not fault.strerror:
        return str(fault)
    if fault.filename is None or isinstance(fault.filename, int) or _is_same(os.fsdecode(fault.filename), path):
        return fault.strerror
    return f"{escape(os.fsdecode(fault.filename))}: {fault.strerror}"


def describe_bug(fault: BaseException) -> str:
    """The kind of an exception that nobody expects, and where it was raised. Its text may be plaintext."""
    trace = fault.__traceback__
    while trace and trace.tb_next:
        trace = trace.tb_next
    place = f" in line {trace.tb_lineno} of {os.path.basename(trace.tb_frame.f_code.co_filename)}" if trace else ""
    return f"{type(fault).__name__}{place}, which is a bug"


def name_file(path: str, fault: Exception) -> None:
    """Gives a lack of memory, or too deep a recursion, the file that has led to it. It ends the companion, with what it
    came after."""
    fault.args = (f"{escape(path)}: {str(fault) or 'out of memory'}",)


def describe_refusal(path: str, fault: Exception) -> str:
    """The path of a refused file, with the reason."""
    return f"{escape(path)}: {describe_fault(fault, path)}"


def _is_same(first: str, second: str) -> bool:
    """Whether two paths lead to the same place. If the current directory is gone, a relative one leads nowhere."""
    try:
        return second != "" and (first == second or os.path.realpath(first) == os.path.realpath(second))
    except OSError:
        return False

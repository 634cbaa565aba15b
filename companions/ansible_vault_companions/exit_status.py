"""Runs the work of a companion: what is refused or fails becomes a message, and all together an exit status."""

from __future__ import annotations

import resource
import sys
from collections.abc import Callable

from ansible_vault_companions import memory, signals
from ansible_vault_companions.output import LOST, flush_streams, open_streams, write_data, write_error
from ansible_vault_companions.refusals import Refused, describe_fault, describe_refusal, name_file


def attempt_work(name: str, path: str, work: Callable[[], int | None]) -> int:
    """Works on a file. Returns the exit status that the work returns, if any, or that of a failure, after a message."""
    try:
        return work() or 0
    except (MemoryError, RecursionError) as fault:
        name_file(path, fault)
        raise
    except (Refused, OSError) as fault:
        return _report_fault(f"{name}: {describe_refusal(path, fault)}", fault)


def _report_fault(text: str, fault: Exception) -> int:
    """Prints a message, and returns the status. A signal that came before it ends the companion."""
    write_error(text)
    signals.end_by_signal()
    return fault.status if isinstance(fault, Refused) else 1


def run_companion(name: str, main: Callable[[list[str]], int]) -> None:
    """Runs a companion with the command line's words, and exits with its status."""
    memory.limit_memory()
    open_streams()
    # A core dump would contain plaintext and passwords.
    resource.setrlimit(resource.RLIMIT_CORE, (0, resource.getrlimit(resource.RLIMIT_CORE)[1]))
    status = _attempt_all(name, main)
    # A failure of which nobody can be told is one, too.
    if not flush_streams() or LOST:
        status = status or 1
    # While Python ends, it ignores exceptions.
    signals.stop_handling()
    sys.exit(status)


def _attempt_all(name: str, main: Callable[[list[str]], int]) -> int:
    """The status of all the work or, after a message, of what has ended it."""
    try:
        try:
            status = main(sys.argv[1:])
        except SystemExit as end:
            # argparse exits after the help and after an invalid command line.
            status = int(end.code or 0)
        write_data(b"")
        return status
    except (Refused, OSError) as fault:
        return _report_fault(f"{name}: {describe_fault(fault)}", fault)

"""Before other imports, signals get their actions, and what nothing else reports, such as a lack of memory, a line."""

from __future__ import annotations

import os
import sys


# These kinds, and not those below them, such as that of a module that is not there. Python's import of a module may end
# in a SystemError if it lacks memory.
SHORTAGES = {MemoryError, RecursionError, SystemError, ImportError}


def prepare_process() -> None:
    """Turns exceptions that nothing catches into a line, and sets the actions of signals."""
    sys.excepthook = report_failure
    sys.unraisablehook = report_ignored_exception
    # This may lack memory, too.
    from ansible_vault_companions import signals

    signals.handle_signals()


def report_failure(kind: type[BaseException], fault: BaseException, _trace: object) -> None:
    """Says in one line what the system refused, such as memory. A signal ends the process without a word. Anything else
    is a bug, with a traceback to report."""
    from ansible_vault_companions import signals

    signals.stop_handling()
    # Such as "can't start new thread".
    lacks_thread = kind is RuntimeError and str(fault).startswith("can't ")
    if kind in SHORTAGES or lacks_thread or issubclass(kind, OSError):
        # It may have come while another one was reported, which may say where a text is kept.
        reasons = [str(fault) or "out of memory", str(fault.__context__ or "")]
        sys.stderr.write(f"{os.path.basename(sys.argv[0])}: {'; '.join(filter(None, reasons))}\n")
    else:
        sys.__excepthook__(kind, fault, fault.__traceback__)


def report_ignored_exception(ignored: sys.UnraisableHookArgs) -> None:
    """Reports an exception that Python ignores, as in a finalizer, unless it lacks memory there, which may also be a
    SystemError. If that ends the run, the run says so itself. A signal still ends it."""
    if issubclass(ignored.exc_type, (MemoryError, SystemError)):
        return
    from ansible_vault_companions import signals

    if issubclass(ignored.exc_type, signals.Stopped):
        signals.stop_again()
    else:
        sys.__unraisablehook__(ignored)

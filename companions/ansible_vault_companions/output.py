"""The standard streams: opens those that are closed, writes to them, and tells whether all of it arrived.

At a terminal, a line of progress says how far long work is.
"""

from __future__ import annotations

import io
import os
import sys
import time
from collections.abc import Callable
from select import PIPE_BUF, POLLOUT, poll

from ansible_vault_companions import signals
from ansible_vault_companions.quoting import escape_lines
from ansible_vault_companions.refusals import Refused, describe_fault

# Messages that could not be written. A companion that has any fails at its end.
LOST: list[str] = []
# Seconds until work counts as long, and between two lines of progress.
LONG, PAUSE = 2.0, 0.2
# The line of progress that the terminal shows.
_shown = ""


def open_streams() -> None:
    """Opens /dev/null for each closed standard stream, so that no file gets its number. Using it still fails."""
    for number, mode in enumerate((os.O_WRONLY, os.O_RDONLY, os.O_RDONLY)):
        try:
            os.fstat(number)
        except OSError:
            os.set_inheritable(os.open(os.devnull, mode), True)
    sys.stdout = sys.stdout or open(1, "w", closefd=False)
    sys.stderr = sys.stderr or open(2, "w", buffering=1, closefd=False)
    for stream in (sys.stdout, sys.stderr):
        if isinstance(stream, io.TextIOWrapper):
            stream.reconfigure(errors="backslashreplace")


def write_data(data: bytes) -> None:
    """Writes to standard output."""
    _show("")
    try:
        sys.stdout.buffer.write(data)
        sys.stdout.flush()
    except OSError as fault:
        discard_stream(sys.stdout.fileno())
        raise Refused(f"standard output cannot be written: {describe_fault(fault)}") from None


def write_line(text: str) -> None:
    """Prints a line on standard output."""
    write_data(f"{text}\n".encode(sys.stdout.encoding, "backslashreplace"))


def write_error(text: str) -> None:
    """Prints a message on standard error, in one write unless it is long. If that fails, work goes on."""
    data = f"{escape_lines(text)}\n".encode(sys.stderr.encoding, "backslashreplace")
    _show("")
    try:
        sys.stderr.flush()
        write_when_possible(sys.stderr.fileno(), data)
    except OSError:
        LOST.append(text)


def write_when_possible(descriptor: int, data: bytes) -> None:
    """Writes to what may not take it at once: a pipe may be full, and a terminal be stopped. Once a signal has ended
    the companion, nobody waits for that."""
    # `select` refuses descriptors over 1,023.
    waiting = poll()
    waiting.register(descriptor, POLLOUT)
    while data:
        if not waiting.poll(0):
            if signals.received:
                raise BlockingIOError
            with signals.Arrival():
                waiting.poll()
        data = data[os.write(descriptor, data[:PIPE_BUF]) :]


class Progress:
    """A context in which a line at the terminal says how far long work is. It goes away before any other line, and at
    the end. Only the main thread may show it."""

    def __init__(self, describe: Callable[[], str]) -> None:
        # Says it in numbers, and with nothing of a file.
        self.describe = describe
        # How often that changes; None if nobody would see it.
        self.pause = PAUSE if sys.stderr.isatty() else None
        self.due = time.monotonic() + LONG

    def __enter__(self) -> Progress:
        return self

    def __exit__(self, *_: object) -> None:
        _show("")

    def show(self) -> None:
        if self.pause and time.monotonic() > self.due:
            _show(f"{os.path.basename(sys.argv[0])}: {self.describe()}")
            self.due = time.monotonic() + self.pause


def _show(line: str) -> None:
    """Shows another line of progress, or none, unless the terminal is stopped."""
    global _shown
    if line == _shown:
        return
    waiting = poll()
    waiting.register(sys.stderr.fileno(), POLLOUT)
    if waiting.poll(0):
        blank = " " * len(_shown)
        try:
            os.write(sys.stderr.fileno(), f"\r{blank}\r{line}".encode(sys.stderr.encoding))
            _shown = line
        except OSError:
            # Whoever has to be told something is told elsewhere.
            pass


def flush_streams() -> bool:
    """Whether all that was printed could be written."""
    is_written = True
    for stream in (sys.stdout, sys.stderr):
        try:
            stream.flush()
        except OSError:
            discard_stream(stream.fileno())
            is_written = False
    return is_written


def discard_stream(descriptor: int) -> None:
    """Points a stream to /dev/null, so that Python does not try the failed write again when it exits."""
    null = os.open(os.devnull, os.O_WRONLY)
    os.dup2(null, descriptor)
    os.close(null)

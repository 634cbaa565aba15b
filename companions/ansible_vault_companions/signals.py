"""A signal that asks a companion to end raises an exception, so that what has to be cleaned up or kept is.

Then it ends the companion by its default action. Further ones are ignored meanwhile.
"""

from __future__ import annotations

import signal
from collections.abc import Callable, Iterable

# Those that keys of a terminal send to all its programs; and all.
OF_KEYS = {signal.SIGINT, signal.SIGQUIT}
ENDING = {signal.SIGHUP, signal.SIGTERM, *OF_KEYS}
# Those that are postponed, with that of a timer, which raises again what Python has ignored.
POSTPONED = {*ENDING, signal.SIGALRM}
AGAIN = 0.01
# The signal that ends this companion; 0 if there is none yet.
received = 0


class Stopped(BaseException):
    """A signal has asked the companion to end."""


def handle_signals() -> None:
    """Lets signals through, and raises Stopped for those that are not ignored."""
    _set_actions(ENDING, _stop)
    # If it is ignored, the system keeps no exit statuses of child processes.
    signal.signal(signal.SIGCHLD, signal.SIG_DFL)
    signal.pthread_sigmask(signal.SIG_SETMASK, ())


def _stop(number: int, _frame: object) -> None:
    global received
    received = number
    _set_actions(ENDING, signal.SIG_IGN)
    raise Stopped


def _set_actions(numbers: Iterable[int], action: Callable[[int, object], None] | signal.Handlers) -> None:
    """Sets the action of each of these signals that is not ignored."""
    for number in numbers:
        if signal.getsignal(number) != signal.SIG_IGN:
            signal.signal(number, action)


def stop_again() -> None:
    """Raises Stopped in a moment, since Python ignores an exception in a finalizer or in a callback of its own."""
    signal.signal(signal.SIGALRM, _raise_again)
    signal.setitimer(signal.ITIMER_REAL, AGAIN)


def _raise_again(_number: int, _frame: object) -> None:
    raise Stopped


def end_by_signal() -> None:
    """Ends the companion, if a signal has asked it to."""
    if received:
        signal.signal(received, signal.SIG_DFL)
        signal.raise_signal(received)


def stop_handling() -> None:
    """When nothing is left to clean up or keep: a signal that has come ends the companion, and so does any other."""
    _set_actions(ENDING, signal.SIG_DFL)
    end_by_signal()


class Postponement:
    """A context at whose end signals arrive."""

    how = signal.SIG_BLOCK

    def __enter__(self) -> None:
        try:
            self.mask = signal.pthread_sigmask(self.how, POSTPONED)
        except Stopped:
            # Python tells of an earlier signal only after the call. Blocked, that could not end the companion any more.
            signal.pthread_sigmask(signal.SIG_UNBLOCK, POSTPONED)
            raise

    def __exit__(self, *_: object) -> None:
        signal.pthread_sigmask(signal.SIG_SETMASK, self.mask)


class Arrival(Postponement):
    """A context within that one, in which they arrive."""

    how = signal.SIG_UNBLOCK


class KeysForOthers:
    """A context in which the signals of keys are for another program alone."""

    def __enter__(self) -> None:
        self.numbers = {number for number in OF_KEYS if signal.getsignal(number) == _stop}
        _set_actions(self.numbers, signal.SIG_IGN)

    def __exit__(self, *_: object) -> None:
        if not received:
            for number in self.numbers:
                signal.signal(number, _stop)

    def use_default_actions(self) -> None:
        """For the other program, before it begins."""
        for number in self.numbers:
            signal.signal(number, signal.SIG_DFL)

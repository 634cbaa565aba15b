"""Finds programs and runs them.

git and ansible-vault end by themselves when a signal ends the companion, since that closes their pipes. An editor and a
password script may wait for a person, so a signal is passed on to them, and they have as much memory as they want.
"""

from __future__ import annotations

import os
import signal
from collections.abc import Callable, Iterable

from ansible_vault_companions import memory, signals
from ansible_vault_companions.quoting import escape
from ansible_vault_companions.refusals import Refused

# The module `typing` takes long to import, and so does `subprocess`, which not all runs of ansible-vault-with need.
TYPE_CHECKING = False
if TYPE_CHECKING:
    from subprocess import CompletedProcess, Popen
    from typing import Any, NoReturn


def run_program(words: list[str], data: bytes = b"", **options: Any) -> CompletedProcess[bytes]:
    """Runs a program that reads this data, to its end, and keeps its output."""
    import subprocess

    try:
        return subprocess.run(words, input=data, stdout=subprocess.PIPE, stderr=subprocess.PIPE, **options)
    except OSError as fault:
        raise Refused(describe_start(fault, words[0])) from None


def run_script(words: list[str], **streams: Any) -> CompletedProcess[bytes]:
    """Runs a program that may wait for a person, and keeps its output, except that of streams that it shares with the
    companion. A signal ends the companion even if the program goes on."""
    from subprocess import DEVNULL, PIPE

    options: dict[str, Any] = {"stdin": DEVNULL, "stdout": PIPE, "stderr": PIPE, **streams}
    return _run_for_person(words, _lift_bounds, is_awaited=False, **options)


def run_on_terminal(words: list[str]) -> int:
    """Runs a program that owns the terminal, and so gets the signals of keys itself. Another signal raises Stopped once
    the program has ended."""
    keys = signals.KeysForOthers()

    def prepare() -> None:
        _lift_bounds()
        keys.use_default_actions()

    try:
        with keys:
            return _run_for_person(words, prepare, is_awaited=True).returncode
    except OSError as fault:
        raise Refused(describe_start(fault, words[0])) from None


def _run_for_person(
    words: list[str], prepare: Callable[[], None], is_awaited: bool, **streams: Any
) -> CompletedProcess[bytes]:
    """Runs a program to its end. A signal is passed on to it, even if it is stopped, and raises Stopped, at once or at
    that end. What the program has started is its own concern."""
    from subprocess import CompletedProcess, Popen

    program: Popen[bytes] | None = None
    try:
        # Until the program is known, no signal could be passed on.
        with signals.Postponement():
            program = Popen(words, preexec_fn=prepare, **streams)
        output, errors = program.communicate()
    except signals.Stopped:
        if program:
            program.send_signal(signals.received)
            program.send_signal(signal.SIGCONT)
            if is_awaited:
                program.wait()
        raise
    return CompletedProcess(words, program.returncode, output, errors)


def _lift_bounds() -> None:
    """For a program that the user has chosen: all of the memory, and signals at any time."""
    memory.lift_limit()
    signal.pthread_sigmask(signal.SIG_SETMASK, ())


def start_program(words: list[str], **options: Any) -> Popen[bytes]:
    from subprocess import Popen

    try:
        return Popen(words, **options)
    except OSError as fault:
        raise Refused(describe_start(fault, words[0])) from None


def describe_start(fault: OSError, program: str) -> str:
    """Why a program cannot be started. What is missing may also be /dev/null, or the directory to start it in."""
    if fault.filename not in (None, program):
        return f"{program} cannot be started: {escape(fault.filename)}: {fault.strerror}"
    if isinstance(fault, FileNotFoundError) and os.sep not in program:
        return f"{program} is not installed; install it"
    return f"{program} cannot be started: {fault.strerror}"


def list_beside(companion: str) -> list[str]:
    """The directory of a companion, and those of the files that a link to it leads to."""
    path = os.path.abspath(companion)
    folders = [os.path.dirname(path)]
    while os.path.islink(path):
        path = os.path.normpath(os.path.join(os.path.dirname(path), os.readlink(path)))
        folders.append(os.path.dirname(path))
    return folders


def find_beside(companion: str, name: str) -> str | None:
    """The path of another program beside a companion."""
    found = find_programs(list_beside(companion), name, companion)
    return found[0] if found else None


def take_over(path: str, words: list[str], kept: Iterable[int]) -> NoReturn:
    """Replaces this process with a program, which inherits its streams and these descriptors."""
    for descriptor in kept:
        os.set_inheritable(descriptor, True)
    memory.lift_limit()
    # Python ignores these signals, and the program would inherit that.
    for number in (signal.SIGPIPE, signal.SIGXFSZ):
        signal.signal(number, signal.SIG_DFL)
    os.execv(path, [path, *words])


def find_programs(folders: list[str], name: str, companion: str) -> list[str]:
    """The programs of this name that are not the companion itself, to which a link may have given the name."""
    paths = (os.path.join(folder, name) for folder in folders if folder)
    fitting = (path for path in paths if os.path.isfile(path) and os.access(path, os.X_OK))
    return [path for path in fitting if not os.path.samefile(path, companion)]

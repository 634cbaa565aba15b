"""The system calls of a run, as strace logs them."""

import re
from itertools import takewhile
from pathlib import Path
from typing import NamedTuple

from lib.processes import run

LINE = re.compile(r"\d+ +\[([0-9a-f]+|\?+)\] (\w+)\((.*)\) += (\?|-?\d+|0x[0-9a-f]+)(?: (E[A-Z0-9]+))?")
# The last line of a run, which is not a call.
ENDED = re.compile(r"\d+ +\[[?]+\] \+\+\+ ")
PATH = re.compile(r'"([^"]*)"')
# The loader's code is no longer than this.
LOADER_LENGTH = 1 << 18
# The C library, not the program, makes these calls while it is loaded.
OF_THE_LOADER = ("prlimit64",)


class Call(NamedTuple):
    """A call with its arguments as strace prints them, and the instruction pointer at the call."""

    name: str
    args: str
    result: int
    error: str
    address: int

    @property
    def path(self) -> str:
        [path, *_] = PATH.findall(self.args)
        return str(path)

    @property
    def fd(self) -> int:
        """The first argument, a file descriptor."""
        return int(self.args.split(",")[0])


class Calls(NamedTuple):
    """The calls of the loader, including `execve`, and those of the program."""

    loading: list[Call]
    own: list[Call]


class Traced(NamedTuple):
    """A finished run."""

    status: int
    output: bytes | None
    message: bytes | None
    loading: list[Call]
    own: list[Call]


def calls_in(log: str) -> list[Call]:
    """Return the calls in a log. If a line is not a complete call (an unfinished one, a signal), the call's name is the
    line, so that no test overlooks it."""
    calls = []
    for line in log.splitlines():
        if found := LINE.match(line):
            address, name, args, result, error = found.groups(default="")
            value = 0 if result == "?" else int(result, 0)
            calls.append(Call(name, args, value, error, 0 if "?" in address else int(address, 16)))
        elif not ENDED.match(line):
            calls.append(Call(line, "", 0, "", 0))
    return calls


def split_calls(log: Path, programs: int = 1) -> Calls:
    """Return the calls in a log. If a run executes several programs, one after the other, return those of the last."""
    calls = calls_in(log.read_text())
    started = [number for number, call in enumerate(calls) if call.name == "execve" and not call.error]
    execve, *calls = calls[started[programs - 1] :]
    # The first call is the loader's.
    loading = [*takewhile(lambda call: is_near(call, calls[0]) or call.name in OF_THE_LOADER, calls)]
    return Calls([execve, *loading], calls[len(loading) :])


def is_near(call: Call, of_loader: Call) -> bool:
    """Return whether a call comes from the same code as one of the loader's."""
    return abs(call.address - of_loader.address) < LOADER_LENGTH


def tracing(log: Path) -> list[str]:
    """Return the start of a command line that logs the calls of a run."""
    return ["strace", "-f", "-i", "-s", "0", "-o", str(log)]


def trace(words: list[str], log: Path, programs: int = 1, stdin: bytes = b"") -> Traced:
    done = run([*tracing(log), *words], stdin)
    calls = split_calls(log, programs)
    return Traced(done.returncode, done.stdout, done.stderr, calls.loading, calls.own)

"""Companions in forks of a process that has imported them: many runs in a short time."""

import json
import subprocess
import sys
from pathlib import Path
from types import TracebackType
from typing import NamedTuple

from companion_cases import Place
from lib import fork_server


class Run(NamedTuple):
    """What is left of a run: its status (the number of a signal is negative), and what it printed."""

    status: int
    output: str
    errors: str


class Forks:
    def __init__(self, companions: Path) -> None:
        command = [sys.executable, "-IB", fork_server.__file__, str(companions)]
        self.server = subprocess.Popen(command, stdin=subprocess.PIPE, stdout=subprocess.PIPE, text=True)

    def __enter__(self) -> "Forks":
        return self

    def __exit__(self, _type: type[BaseException] | None, _fault: object, _trace: TracebackType | None) -> None:
        self.server.kill()
        self.server.communicate()

    def run(self, place: Place, *words: str, folder: str = ".", **variables: str) -> Run:
        """Run a companion in a directory of the tree, as `place.run` does."""
        environment = place.environment | variables
        request = {"words": words, "folder": str(place.tree / folder), "environment": environment}
        assert self.server.stdin and self.server.stdout
        self.server.stdin.write(f"{json.dumps(request)}\n")
        self.server.stdin.flush()
        return Run(**json.loads(self.server.stdout.readline()))

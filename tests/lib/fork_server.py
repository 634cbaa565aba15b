"""Runs companions, each in a fork of this process, which has imported them. So a run takes only the time of its work.

It reads requests from standard input, a line of JSON each, and prints what is left of each run as another line.
"""

import json
import os
import resource
import runpy
import signal
import sys
from pathlib import Path
from typing import Any

# Seconds after which a run is ended: of processor time, and by the clock.
OF_PROCESSOR, BY_CLOCK = 240, 600


def start(main: dict[str, Any], words: list[str], folder: str, environment: dict[str, str]) -> None:
    """Become a companion, whose streams are open already, and end as it does."""
    from ansible_vault_companions import exit_status

    os.environ.clear()
    os.environ.update(environment)
    os.chdir(folder)
    resource.setrlimit(resource.RLIMIT_CPU, (OF_PROCESSOR, OF_PROCESSOR))
    signal.alarm(BY_CLOCK)
    sys.argv = words
    exit_status.run_companion(main["NAME"], main["main"])


def answer(companions: dict[str, dict[str, Any]], words: list[str], folder: str, environment: dict[str, str]) -> object:
    """Run a companion, and return the parts of a `Run`."""
    streams = [os.open(os.devnull, os.O_RDONLY), os.memfd_create("output"), os.memfd_create("errors")]
    child = os.fork()
    if child == 0:
        for number, stream in enumerate(streams):
            os.dup2(stream, number)
        start(companions[words[0]], words, folder, environment)
    _, status = os.waitpid(child, 0)
    _, output, errors = streams
    left = {"status": os.waitstatus_to_exitcode(status), "output": read_all(output), "errors": read_all(errors)}
    for stream in streams:
        os.close(stream)
    return left


def read_all(stream: int) -> str:
    return os.pread(stream, os.fstat(stream).st_size, 0).decode(errors="surrogateescape")


def serve(folder: Path) -> None:
    companions = {path.name: runpy.run_path(str(path), run_name="imported") for path in folder.glob("ansible-vault-*")}
    for line in sys.stdin:
        print(json.dumps(answer(companions, **json.loads(line))), flush=True)


if __name__ == "__main__":
    serve(Path(sys.argv[1]))

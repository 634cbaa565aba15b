"""Libraries that are loaded before a program's own and replace some of their functions."""

import os
import subprocess
import tempfile
from collections.abc import Callable
from pathlib import Path
from typing import TypeVar

# The descriptor on which a library reports.
REPORT_DESCRIPTOR = 3
Done = TypeVar("Done")


def build_library(folder: str, name: str) -> str:
    """Compile the C file with this name in this directory, and return the path of the library."""
    source = Path(__file__).resolve().parent / f"{name}.c"
    library = os.path.join(folder, f"{name}.so")
    subprocess.run(["cc", "-shared", "-fPIC", "-O1", "-o", library, str(source)], check=True)
    return library


def run_with(library: str, variables: dict[str, str], run: Callable[..., Done]) -> tuple[Done, bytes]:
    """Return what `run` returns, and what the library reports. `run` takes the options of `subprocess` that load it."""
    with tempfile.TemporaryFile() as report:
        done = run(
            env={"LD_PRELOAD": library, **variables},
            pass_fds=[REPORT_DESCRIPTOR],
            preexec_fn=lambda: os.dup2(report.fileno(), REPORT_DESCRIPTOR),
        )
        report.seek(0)
        return done, report.read()


def refusing_each(library: str, run: Callable[..., Done]) -> tuple[list[Done], Done]:
    """Return the results with each allocation of memory refused in turn, by `refuse_allocation`, and with none."""
    refused: list[Done] = []
    while True:
        done, report = run_with(library, {"REFUSED_ALLOCATION": str(len(refused) + 1)}, run)
        if not report:
            return refused, done
        refused.append(done)

#!/usr/bin/env python3
"""Run a command of the prover, and print every minute how many crates are proved and what the prover said last.

    tools/progress.py LOG COMMAND..

LOG keeps the command's output, and is printed, indented, if the command fails. The exit status is the command's. If the
command's last line counts what passed, it is the last line here, too.
"""

import contextlib
import re
import subprocess
import sys
import textwrap
import time
from pathlib import Path

# Seconds between two lines of output.
PAUSE = 60
SAID = re.compile(r"^(?:rt|so far): (.*)$", re.MULTILINE)
# How the gate and a build report a proved crate.
PROVED = re.compile(r"^(?:rt: (\w+) proved|crate (\w+): modules .*)$", re.MULTILINE)
COUNT = re.compile(r"\d+ passed, \d+ failed\Z")


def main(log: Path, command: list[str]) -> int:
    begun, status = time.monotonic(), None
    with open(log, "w") as output:
        try:
            process = subprocess.Popen(command, stdout=output, stderr=subprocess.STDOUT)
        except (FileNotFoundError, PermissionError):
            sys.exit(f"{command[0]} is not on PATH; it comes with the Rattle kit")
    while status is None:
        with contextlib.suppress(subprocess.TimeoutExpired):
            status = process.wait(PAUSE)
        text = log.read_text(errors="replace")
        said = SAID.findall(text) or ["nothing is said yet"]
        state = f"{len({''.join(names) for names in PROVED.findall(text)})} crates are proved; {said[-1]}"
        if status is not None:
            state = f"{'FAILED' if status else 'done'}; the whole log is {log}"
        print(textwrap.indent(text, "    ") if status else "", end="")
        print(f"{(time.monotonic() - begun) / 60:5.0f} min  {state}", flush=True)
    if found := COUNT.search(text.rstrip()):
        print(found[0])
    return status


if __name__ == "__main__":
    sys.exit(main(Path(sys.argv[1]), sys.argv[2:]))

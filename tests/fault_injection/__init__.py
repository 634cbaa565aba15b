"""Runs in which something fails: of each command to a new file, to an old one and to standard output, each in a
directory of its own, which must contain only its output afterwards."""

import os
import stat
import tempfile
from pathlib import Path
from typing import Any, NamedTuple

from lib import processes
from lib.cases import OLD, TEXT, Cases
from lib.samples import COMMANDS, TO_OUTPUT, sample_of
from model.faults import Fault

OUTPUT = "output"
OLD_MODE, OWNER_ONLY = 0o640, 0o600
# In memory if possible, since there are thousands of files.
SCRATCH = "/dev/shm" if os.access("/dev/shm", os.W_OK) else None
NEW_FILE = "a new file"
OLD_FILE = "an old file"
STREAM = "standard output"
# The commands, each with the targets of its output.
TARGETS = [(command, target) for command in TO_OUTPUT for target in (NEW_FILE, OLD_FILE)]
TARGETS += [(command, STREAM) for command in COMMANDS]


class Left(NamedTuple):
    """What a run leaves: its status, its streams, and each file in its directory with its mode."""

    status: int
    output: bytes
    message: bytes
    files: dict[str, tuple[bytes, int]]

    def __str__(self) -> str:
        files = {name: (len(content), content[:20], oct(mode)) for name, (content, mode) in self.files.items()}
        return f"status {self.status}, {len(self.output)} bytes, {self.message!r:.200}, files {files}"


class Scenario(NamedTuple):
    """A run with the path of its standard input, and its whole output."""

    words: list[str]
    stdin: str
    whole: bytes
    target: str

    def untouched(self, fault: Fault, mode: int = OLD_MODE) -> Left:
        """Return what is left if the output was not opened, or was only made private."""
        return Left(fault.status, b"", fault.line, {OUTPUT: (OLD, mode)} if self.target == OLD_FILE else {})

    def fault_free(self) -> Left:
        if self.target == STREAM:
            return Left(0, self.whole, b"", {})
        mode = OLD_MODE if self.target == OLD_FILE and self.words[0] != "decrypt" else OWNER_ONLY
        return Left(0, b"", b"", {OUTPUT: (self.whole, mode)})

    def run(self, command: list[str], **options: Any) -> Left:
        """Run it with the program, after the words of a tool, and with these options of `subprocess`."""
        with tempfile.TemporaryDirectory(dir=SCRATCH) as folder, open(self.stdin, "rb") as stdin:
            if self.target == OLD_FILE:
                Path(folder, OUTPUT).write_bytes(OLD)
                Path(folder, OUTPUT).chmod(OLD_MODE)
            done = processes.run([*command, *self.words], stdin, cwd=folder, **options)
            paths = [*Path(folder).iterdir()]
            files = {path.name: (path.read_bytes(), stat.S_IMODE(path.stat().st_mode)) for path in paths}
            return Left(done.returncode, done.stdout, done.stderr, files)


def scenario_of(cases: Cases, command: str, target: str, size: int) -> Scenario:
    """Return a run with a plaintext of this size. If the output is a new file, the input is FILE, if there is one."""
    sample = sample_of(cases, command, (TEXT * size)[:size])
    path = cases.file(sample.stdin)
    words = [*sample.words]
    if target != STREAM:
        words += ["--output", OUTPUT]
    if target == NEW_FILE and command != "encrypt_string":
        return Scenario([*words, path], cases.file(b"not asked for"), sample.output, target)
    return Scenario(words, path, sample.output, target)

"""Run the program, with its files in a directory of their own."""

import os
import stat
import subprocess
from collections.abc import Sequence
from pathlib import Path
from typing import Any, NamedTuple

from lib.processes import run
from model.faults import Fault

TEXT = b"secret: value\n"
OLD = b"what stood here before\n" * 1_000


def by_file(path: str) -> list[str]:
    return ["--vault-password-file", path]


def by_id(path: str, label: str = "default") -> list[str]:
    return ["--vault-id", f"{label}@{path}"]


class Answer(NamedTuple):
    """The status of a run, and all that it prints."""

    status: int
    output: bytes | str
    errors: bytes | str


def answer_of(done: subprocess.CompletedProcess[Any]) -> Answer:
    return Answer(done.returncode, done.stdout, done.stderr)


def refusal(fault: Fault) -> Answer:
    return Answer(fault.status, b"", fault.line)


class Cases:
    """Runs the program and creates files for it in one directory."""

    def __init__(self, program: str, folder: Path) -> None:
        self.program = os.path.abspath(program)
        self.folder = folder
        self.path_count = 0

    def path(self) -> str:
        """Return a new path, where no file exists yet."""
        self.path_count += 1
        return str(self.folder / f"file{self.path_count}")

    def file(self, content: bytes, mode: int = 0o644) -> str:
        """Create a file, and return its path."""
        path = Path(self.path())
        path.write_bytes(content)
        path.chmod(mode)
        return str(path)

    def device(self, name: str) -> str:
        """Return the path of a device node, a private one if it can be created: run by root, a faulty program could
        change the system's own."""
        path = self.path()
        try:
            os.mknod(path, stat.S_IFCHR, os.stat(f"/dev/{name}").st_rdev)
            os.chmod(path, 0o666)
            os.close(os.open(path, os.O_WRONLY))
        except PermissionError:
            return f"/dev/{name}"
        return path

    def done(self, words: Sequence[str], stdin: Any = b"", **options: Any) -> subprocess.CompletedProcess[bytes]:
        return run([self.program, *words], stdin, **options)

    def run(
        self, words: Sequence[str], stdin: bytes = b"", status: int = 0, out: bytes | None = b"", err: bytes = b""
    ) -> bytes:
        """Check the status and both streams, and return the output. If `out` is None, the output is not checked."""
        done = self.done(words, stdin)
        assert answer_of(done) == Answer(status, done.stdout if out is None else out, err), words
        return done.stdout

    def decrypts(self, options: Sequence[str], vault: bytes, plaintext: bytes) -> None:
        """Check that both commands that read print this plaintext."""
        for command in ("view", "decrypt"):
            self.run([command, *options], vault, out=plaintext)

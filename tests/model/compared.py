"""Run a request with the program, and compare the result with the model's."""

import os
import tempfile
from pathlib import Path
from typing import NamedTuple

from lib.processes import run
from model.answers import Answer, answer, refusal
from model.faults import Fault
from model.formats import SALT_LENGTH, SECRET_LIMIT
from model.options import SALT_FILE
from model.random_requests import Case

FULL_DEVICE = "/dev/full"
# Of the endless file, this is read at most.
ZEROS = {"/dev/zero": bytes(SECRET_LIMIT + 1)}


class File(NamedTuple):
    content: bytes
    mode: int


Files = dict[str, File]
# What an output has before it is written, if it is a new file.
NEW_FILE = File(b"", 0o600)


def salt_in(output: bytes) -> bytes:
    """Return the 32 bytes of salt in an envelope or block, or 32 other bytes if there is none."""
    lines = [line.strip(b" ") for line in output.partition(b"$ANSIBLE")[2].split(b"\n")]
    try:
        inner = bytes.fromhex(b"".join(lines[1:3]).decode())
        return bytes.fromhex(inner[: 2 * SALT_LENGTH].decode()).ljust(SALT_LENGTH)
    except ValueError:
        return bytes(SALT_LENGTH)


def files_in(folder: Path) -> Files:
    files = {}
    for path in folder.rglob("*"):
        if path.is_file():
            files[str(path.relative_to(folder))] = File(path.read_bytes(), path.stat().st_mode & 0o777)
    return files


def can_be_written(answered: Answer, case: Case) -> bool:
    """Return whether there is room for the output at its path, and no directory in its place."""
    if answered.path is None:
        return True
    if answered.path == FULL_DEVICE:
        return answered.output == b""
    folders = {"", *(name for name, content in case.files.items() if content is None)}
    return answered.path not in folders and os.path.dirname(answered.path) in folders


def expected(case: Case, salt: bytes) -> Answer:
    """Return the answer if /dev/urandom gives this salt."""
    answered = answer(case.words, case.files | ZEROS | {SALT_FILE: salt}, case.stdin)
    return answered if can_be_written(answered, case) else refusal(Fault.NOT_WRITTEN)


def output_of(stdout: bytes, before: Files, after: Files) -> bytes:
    """Return the content of the file that a run has written, or else what it has printed."""
    for path, file in after.items():
        if file.content != before.get(path, NEW_FILE).content:
            return file.content
    return stdout


def expected_files(command: str, want: Answer, before: Files) -> Files:
    """Return the files after a run with this answer. One that is overwritten keeps its mode, except for plaintext."""
    if want.path is None or want.path == FULL_DEVICE:
        return before
    old = NEW_FILE if command == "decrypt" else before.get(want.path, NEW_FILE)
    return before | {want.path: File(want.output or b"", old.mode)}


def differences(case: Case, program: list[str]) -> list[str]:
    """Run the case in a directory of its own, and list the differences between its result and the model's."""
    with tempfile.TemporaryDirectory() as name:
        folder = Path(name)
        case.lay_out(folder)
        before = files_in(folder)
        done = run([*program, *case.words], case.stdin, cwd=folder)
        after = files_in(folder)
    want = expected(case, salt_in(output_of(done.stdout, before, after)))
    # The parser's message is any text.
    message = want.message if want.message is not None else done.stderr or b"a text"
    output = want.output or b"" if want.path is None else b""
    pairs = {
        "status": (done.returncode, want.status),
        "message": (done.stderr, message),
        "output": (done.stdout, output),
        "files": (after, expected_files(case.words[0], want, before)),
    }
    return [f"{what}: got {got!r:.400}, want {wanted!r:.400}" for what, (got, wanted) in pairs.items() if got != wanted]

"""Run each command in memory, with `drive_in_memory` and with `run`, and refuse each allocation in turn, until there
are no more. The program of crates/vault_allocation_failures makes the runs.

A run ends before its call, as without a refusal, out of memory with no output, with part of its output, which could not
be written, or with part of its message.
"""

from collections.abc import Callable
from functools import partial
from pathlib import Path
from typing import NamedTuple

import pytest

from lib.needs import needs
from lib.paths import ROOT
from lib.preloaded import build_library, refusing_each
from lib.processes import run
from model.faults import Fault
from model.vaults import ENVELOPE, seal, yaml_block

pytestmark = pytest.mark.allocations

PROGRAM = ROOT / "bin" / "vault_allocation_failures"
# The content of the file of `--output` before a run.
KEPT = b"kept\n"
SALT, TEXT = bytes(32), b"a" * 16


class Left(NamedTuple):
    """The status, and the contents of the output, the message and the file `kept`."""

    status: int
    output: bytes = b""
    message: bytes = b""
    kept: bytes = KEPT


# The words of a run, its standard input, and what it leaves without a refusal.
Run = tuple[list[str], bytes, Left]


def runs_of(call: str) -> list[Run]:
    """Return runs of each command: one with an output, one with a file, and one that is refused."""
    one, two = ["--vault-password-file", "one"], ["--vault-id", "a@two", "--vault-id", "b@one"]
    sealed, rekeyed = seal(b"one", TEXT, salt=SALT), seal(b"two", TEXT, b"prod", SALT)
    sealing = [*one, "--salt-file", "salt"]
    # The words of each command, its input and output, and an input that it refuses, with the fault.
    commands = [
        (["view", *two], seal(b"one", TEXT, b"b", SALT), TEXT, b"", Fault.NOT_VAULT),
        (["decrypt", *one], sealed, TEXT, b"", Fault.NOT_VAULT),
        (["rekey", *sealing, "--new-vault-id", "prod@two"], sealed, rekeyed, ENVELOPE, Fault.NO_SECRET_FITS),
        (["encrypt", *sealing], TEXT, sealed, ENVELOPE, Fault.ALREADY_VAULT),
        (["encrypt_string", *sealing], TEXT, yaml_block(sealed), ENVELOPE, Fault.ALREADY_VAULT),
    ]
    runs = []
    for words, stdin, output, bad, fault in commands:
        runs.append(([call, *words], stdin, Left(0, output)))
        runs.append(([call, *words], bad, Left(fault.status, message=fault.line)))
        if call == "drive" and "view" not in words:
            runs.append(([call, *words, "--output", "kept"], stdin, Left(0, kept=output)))
    return runs


MEMORY = Left(Fault.MEMORY.status, message=Fault.MEMORY.line)


def left_in(printed: bytes) -> Left:
    """Return what the program prints about a run."""
    lengths, held = printed.split(b"\n", 1)
    status, output, message, kept, _ = map(int, lengths.split())
    assert len(held) == output + message + kept, printed
    return Left(status, held[:output], held[output : output + message], held[output + message :])


def is_allowed(left: Left, whole: Left) -> bool:
    """Return whether a run with a refused allocation may leave this."""
    if (left.status, left.message) == (Fault.NOT_WRITTEN.status, Fault.NOT_WRITTEN.line):
        is_part_written = whole.output.startswith(left.output) and left.kept == whole.kept
        return is_part_written or whole.kept.startswith(left.kept) and left.output == whole.output
    is_part_told = whole.message.startswith(left.message) and left._replace(message=whole.message) == whole
    return left == MEMORY or is_part_told


RUNS = [*runs_of("drive"), *runs_of("run")]


@pytest.mark.parametrize("words, stdin, whole", RUNS, ids=[" ".join(words) for words, _, _ in RUNS])
def test_refused(
    tmp_path: Path, words: list[str], stdin: bytes, whole: Left, record_property: Callable[[str, object], None]
) -> None:
    needs("cc")
    if not PROGRAM.exists():
        pytest.skip("without bin/vault_allocation_failures, which make builds")
    library = build_library(str(tmp_path), "refuse_allocation")
    each_refused, done = refusing_each(library, partial(run, [str(PROGRAM), *words], stdin))
    assert left_in(done.stdout) == whole
    found = [left_in(each.stdout) for each in each_refused if each.stdout]
    assert [left for left in found if not is_allowed(left, whole)] == []
    assert MEMORY in found
    record_property("allocations refused in memory", (len(found), len(found)))

"""Count the blocks of PBKDF2 that a run computes, by its SHA-256 compressions under Valgrind: three for the secret that
matches, one for each other secret that it tries, and three for each envelope that it writes."""

from typing import NamedTuple

import pytest

from lib.cases import TEXT, Cases, by_id
from lib.counts import PARTS, count_calls
from lib.needs import needs
from lib.samples import SALT_TEXT, SALT_WORDS
from model.faults import Fault
from model.vaults import seal, seal_padded

pytestmark = pytest.mark.valgrind

# The compressions of a block: two in each of 10,000 rounds.
BLOCK = 20_000
# What every other compression in a run may add up to, in blocks.
TOLERANCE = 0.02
# The blocks of a vault's keys, and of the key of its tag alone.
KEYS, TAG = 3, 1


class Run(NamedTuple):
    """The words and the standard input of a run, how it ends, and how many blocks it computes."""

    words: list[str]
    stdin: bytes
    status: int
    output: bytes
    blocks: int


NAMES = [
    "the last has the label",
    "the third of four fits",
    "none fits",
    "none may be tried",
    "a wrong padding",
    "a choice of all",
    "another secret",
]


def run_of(cases: Cases, name: str) -> Run:
    right, wrong = cases.file(b"right\n"), cases.file(b"wrong\n")
    vault = seal(b"right", TEXT)
    fits, other = by_id(right, "x"), by_id(wrong, "other")
    match name:
        case "the last has the label":
            return Run(["decrypt", *other * 15, *by_id(right)], vault, 0, TEXT, blocks=KEYS)
        case "the third of four fits":
            return Run(["view", *other * 2, *fits, *other], vault, 0, TEXT, blocks=2 * TAG + KEYS)
        case "none fits":
            return Run(["view", *other * 16], vault, Fault.NO_SECRET_FITS.status, b"", blocks=16 * TAG)
        case "none may be tried":
            words = ["view", "--require-id-match", *other * 15]
            return Run(words, vault, Fault.NO_SECRET_FITS.status, b"", blocks=0)
        case "a wrong padding":
            unpadded = seal_padded(b"right", bytes(16))
            return Run(["view", *fits, *other * 15], unpadded, Fault.BAD_PADDING.status, b"", blocks=KEYS)
        case "a choice of all":
            words = ["encrypt", *other * 15, *by_id(right, "dev"), "--encrypt-vault-id", "dev", *SALT_WORDS]
            return Run(words, TEXT, 0, seal(b"right", TEXT, b"dev", SALT_TEXT), blocks=KEYS)
    new = cases.file(b"new\n")
    words = ["rekey", *fits, *other * 15, "--new-vault-password-file", new, *SALT_WORDS]
    return Run(words, vault, 0, seal(b"new", TEXT, salt=SALT_TEXT), blocks=2 * KEYS)


@pytest.mark.parametrize("name", NAMES)
def test_derivations(cases: Cases, name: str) -> None:
    needs("valgrind")
    run = run_of(cases, name)
    done, calls = count_calls([cases.program, *run.words], run.stdin)
    assert (done.status, done.output) == (run.status, run.output), "how it ends"
    compressions = sum(count for called, count in calls.items() if called.startswith(PARTS["SHA-256"]))
    assert compressions / BLOCK == pytest.approx(run.blocks, abs=TOLERANCE), "blocks"

"""The cipher reads its tables: no contract can say how a value is found.

Copies of the program have another number at entry 0 of a table. Where the cipher reads that entry, a copy must decrypt
a vault to another text.
"""

import re
from pathlib import Path

import pytest

from lib.cases import TEXT, Cases, answer_of, by_file, refusal
from lib.paths import ROOT
from lib.processes import run
from model.faults import Fault
from model.vaults import seal

SOURCE = ROOT / "crates" / "vault_aes" / "src" / "tables.rt"
TABLE = re.compile(r"^const (\w+): \[u(8|32); 256\] = \[([^]]*)\]", re.MULTILINE)


def read_tables() -> dict[str, bytes]:
    """Return each table as the program has it in memory."""
    tables = {}
    for name, bits, text in TABLE.findall(SOURCE.read_text()):
        numbers = [int(number, 16) for number in re.findall(r"\w+", text)]
        tables[name] = b"".join(number.to_bytes(int(bits) // 8, "little") for number in numbers)
    return tables


# A table of S, and one for each of the four rows.
TABLES = read_tables()
assert len(TABLES) == 5


def check_reads_entry_0(cases: Cases, table: bytes, vault: bytes, text: bytes) -> None:
    words = ["view", *by_file(cases.file(b"right\n"))]
    cases.run(words, vault, out=text)
    program = Path(cases.program).read_bytes()
    assert program.count(table) == 1, "the program has the table once"
    other = bytes([table[0] ^ 1]) + table[1:]
    done = run([cases.file(program.replace(table, other), 0o755), *words], vault)
    assert done.stdout != text, "the text depends on the table"
    if done.returncode != 0:
        # The last block may have another padding then.
        assert answer_of(done) == refusal(Fault.BAD_PADDING), "or it has a wrong padding"


@pytest.mark.parametrize("name", TABLES)
def test_blocks(cases: Cases, name: str) -> None:
    """Some of many blocks read entry 0 of each table."""
    text = TEXT * 4_000
    check_reads_entry_0(cases, TABLES[name], seal(b"right", text), text)


def test_key_expansion(cases: Cases) -> None:
    """With this salt, the key reads entry 0 of S while it is expanded, and the only block reads entry 0 of no table."""
    vault = seal(b"right", b"text\n", salt=bytes([1]) * 32)
    check_reads_entry_0(cases, TABLES["S_BOX"], vault, b"text\n")

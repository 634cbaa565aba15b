"""Messages of ansible-vault-check and ansible-vault-rotate are acted on, as `what_to_do.py` says."""

import pytest

from companion_cases import CHECK, PASSWORDS, ROTATE, TEXT, Place, lines_of, sealed
from companion_cases.every_companion.what_to_do import OLD, OLD_VAULT, Case, Row, Stand, check_row, each_stand, merged
from companion_cases.every_companion.what_to_do import run_with_advice, type_advice, write_advice, written
from companion_cases.repository import BASE, BOTH, OURS, THEIRS

VAULTS = [sealed("old", text) for text in (BASE, OURS, THEIRS)]
JOINED = b'a: !vault "%s"\n' % b" ".join(OLD_VAULT.split())
LINES = lines_of(OLD_VAULT, 2).decode()


def put_script(case: Case) -> None:
    """The file has a password, and may be run like a script."""
    case.put(PASSWORDS["old"] + b"\n", 0o755)
    case.place.put(f"{case.folder}/a.yml", OLD_VAULT)


ROWS = {
    "no driver": Row(
        fault=merged(*VAULTS),
        command=f"{CHECK} {OLD}",
        advice="and run `(.*)`",
        act=type_advice,
        plaintexts=[BOTH],
        attributes="*.yml merge=ansible-vault\n",
    ),
    "no password": Row(
        fault=written(OLD_VAULT),
        command=CHECK,
        advice="name one with (.*?) or",
        act=run_with_advice(rf"{CHECK} \1 ~/secrets/old"),
    ),
    "another password": Row(
        fault=written(sealed("dev", TEXT, "a")),
        command=f"{CHECK} {OLD}",
        advice="with (--.*) LABEL@",
        act=run_with_advice(rf"{CHECK} {OLD} \1 a@~/secrets/dev"),
    ),
    "joined lines": Row(
        fault=written(JOINED),
        command=f"{CHECK} {OLD}",
        advice=r"as a block \(`NAME(.*?)`\)",
        act=write_advice(f"a{{}}\n{LINES}\n"),
    ),
    "no script": Row(
        fault=put_script,
        command=f"{CHECK} --vault-password-file=A_FILE a.yml",
        advice="run `(.*)`",
        act=type_advice,
        plaintexts=[],
    ),
    "no new password": Row(
        fault=written(OLD_VAULT),
        command=f"{ROTATE} {OLD}",
        advice="one with (.*?) or",
        act=run_with_advice(rf"{ROTATE} {OLD} \1 ~/secrets/new"),
    ),
}


@each_stand
@pytest.mark.parametrize("row", ROWS.values(), ids=ROWS)
def test_check_and_rotate(place: Place, row: Row, stand: Stand) -> None:
    check_row(place, row, stand)

"""Messages of ansible-vault-edit and ansible-vault-with are acted on, as `what_to_do.py` says."""

import re

import pytest

from companion_cases import CHANGE, CHANGED, EDIT, TEXT, WITH, Place, block, sealed
from companion_cases.every_companion.what_to_do import DEV, OLD, OLD_VAULT, PROD, TAKE_THEIRS, Case, Row, Stand
from companion_cases.every_companion.what_to_do import check_row, each_stand, merged, run_with_advice, type_advice
from companion_cases.every_companion.what_to_do import write_advice, written
from companion_cases.repository import BASE, OURS, THEIRS

EDIT_BY_OLD = f"{EDIT} {OLD}"
EDIT_BY_BOTH = f"{EDIT} {DEV} {PROD}"
# It has the label of another password.
MISLABELLED = sealed("dev", label="prod")
# Editors: one that saves a change and fails, and one that types a value.
SAVE_AND_FAIL = f"{CHANGE}; exit 3"
TYPE_VALUE = "echo 'b: !vault {}' >> \"$1\""


def no_file(_case: Case) -> None:
    pass


def leave_copy(case: Case) -> None:
    """What a failed edit has saved is kept in a copy."""
    case.put(OLD_VAULT)
    case.edit_by(SAVE_AND_FAIL)
    case.run(EDIT_BY_OLD)
    case.edit_by("true")


def leave_copy_of_another(case: Case) -> None:
    """The vault has another text by now than when the copy was made."""
    leave_copy(case)
    case.put(sealed("old", b"x"))


def type_value(case: Case, advice: re.Match[str]) -> str:
    """Type what the message says as the value, when the copy is open."""
    case.edit_by(f"sed -i 's/^b: !vault *$/b: !vault {advice[1]}/' \"$1\"")
    return f"{EDIT_BY_OLD} --resume"


def leave_out_option(_case: Case, _advice: re.Match[str]) -> str:
    return EDIT_BY_OLD


ROWS = {
    "one side": Row(
        fault=merged(base=sealed("old", BASE), ours=sealed("old", OURS), theirs=THEIRS),
        command=EDIT_BY_OLD,
        advice="take one side with `(.*?)` or",
        act=type_advice,
        plaintexts=[OURS],
    ),
    "labels": Row(
        fault=merged(base=sealed("old", BASE), ours=sealed("dev", OURS, "dev"), theirs=sealed("prod", THEIRS, "prod")),
        command=EDIT_BY_BOTH,
        advice="one with (.*)",
        act=run_with_advice(rf"{EDIT_BY_BOTH} \1 prod"),
        plaintexts=[THEIRS],
        editor=TAKE_THEIRS,
    ),
    "any label": Row(
        fault=written(MISLABELLED),
        command=EDIT_BY_BOTH,
        advice=r"accept it with (--\S+)",
        act=run_with_advice(rf"{EDIT_BY_BOTH} \1"),
    ),
    "another label": Row(
        fault=written(MISLABELLED),
        command=EDIT_BY_BOTH,
        advice="give it the label dev with `(.*?)`",
        act=run_with_advice(rf"\1 {DEV} --new-vault-id=dev@~/secrets/dev"),
    ),
    "it exists": Row(
        fault=written(OLD_VAULT),
        command=f"{WITH} create {OLD}",
        advice="; use `(.*)`",
        act=run_with_advice(rf"{WITH} \1 {OLD}"),
    ),
    "no vault": Row(
        fault=written(TEXT), command=EDIT_BY_OLD, advice="encrypt it with `(.*?)`", act=run_with_advice(rf"\1 {OLD}")
    ),
    "no value": Row(
        fault=written(TEXT),
        command=EDIT_BY_OLD,
        advice="or write `NAME(.*) TEXT`",
        # The message says `: !vault`.
        act=write_advice("b{} x\n"),
        plaintexts=[b"x"],
    ),
    "closed values": Row(
        fault=written(block("prod")),
        command=EDIT_BY_OLD,
        advice=r"the new ones with (--\S+)",
        act=run_with_advice(rf"{EDIT_BY_OLD} \1 default"),
        plaintexts=[b"x", TEXT],
        editor=TYPE_VALUE.format("x"),
    ),
    "no text": Row(
        fault=written(block("old")),
        command=EDIT_BY_OLD,
        advice="!vault`; write `(.*)` for",
        act=type_value,
        # The message says `""`, which is an empty text.
        plaintexts=[TEXT, b""],
        editor=TYPE_VALUE.format(""),
    ),
    "a new vault": Row(
        fault=no_file,
        command=EDIT_BY_BOTH,
        advice="is new; .* with (.*)",
        act=run_with_advice(rf"{EDIT_BY_BOTH} \1 dev"),
        plaintexts=[b"x\n"],
        editor='echo x > "$1"',
    ),
    "a whole vault": Row(
        fault=written(OLD_VAULT),
        command=f"{EDIT_BY_OLD} --value=x",
        advice="edit it without (--value)",
        act=leave_out_option,
    ),
    "a failure": Row(
        fault=written(OLD_VAULT),
        command=EDIT_BY_OLD,
        advice=r"\n(--\w+) opens",
        act=run_with_advice(rf"env EDITOR=true {EDIT_BY_OLD} \1"),
        plaintexts=[CHANGED],
        editor=SAVE_AND_FAIL,
    ),
    "a copy": Row(
        fault=leave_copy,
        command=EDIT_BY_OLD,
        advice="; (.*) opens it",
        act=run_with_advice(rf"{EDIT_BY_OLD} \1"),
        plaintexts=[CHANGED],
    ),
    "a copy that is not wanted": Row(
        fault=leave_copy, command=EDIT_BY_OLD, advice="opens it, (.*) removes it", act=run_with_advice(rf"{EDIT} \1")
    ),
    "a change": Row(
        fault=leave_copy_of_another,
        command=f"{EDIT_BY_OLD} --resume",
        advice="that left (.*); .* `(.*)` shows",
        act=run_with_advice(rf"\2 {OLD} \1"),
        plaintexts=[b"x"],
    ),
    "a change, and no use for the copy": Row(
        fault=leave_copy_of_another,
        command=f"{EDIT_BY_OLD} --resume",
        advice="remove it with (.*)",
        act=run_with_advice(rf"{EDIT} \1"),
        plaintexts=[b"x"],
    ),
}


@each_stand
@pytest.mark.parametrize("row", ROWS.values(), ids=ROWS)
def test_edit(place: Place, row: Row, stand: Stand) -> None:
    check_row(place, row, stand)

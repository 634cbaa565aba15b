"""Messages of ansible-vault-hook are acted on, as `what_to_do.py` says."""

import os
import re

import pytest

from ansible_vault_companions.git.attributes import make_line
from companion_cases import HOOK, TEXT, Place, block, sealed
from companion_cases.every_companion.what_to_do import OLD, OLD_VAULT, TAKE_THEIRS, Case, Row, Stand, check_row
from companion_cases.every_companion.what_to_do import each_stand, merged, run_with_advice, staged, type_advice, written
from companion_cases.repository import BASE, OURS, THEIRS, under_git

VAULTS = [sealed("old", text) for text in (BASE, OURS, THEIRS)]
MARKED = "*.yml diff=ansible-vault\n"
# Values whose paths need escapes, and the same in plaintext.
KEY = '"a b,%=.c[]": '
VALUES = KEY.encode() + block("old", name="").lstrip(b": ") + b"x:\n- " + block("old", name="pw") + b"y: 1\n"
PLAIN = f"{KEY}plain\nx: [pw: plain]\ny: 1\n".encode()
TAGGED = block("old") + b"b: !vault x\ny: 1\n"
SHALLOW = """git commit -q --allow-empty -m second && git clone -q --bare . ../all && rm -rf .git
git clone -q --depth 1 file://$PWD/../all ../one && mv ../one/.git .git && git reset -q"""


def use_shallow_clone(case: Case) -> None:
    case.shell(SHALLOW, ".")


def put_another_hook(case: Case) -> None:
    """A hook of somebody else's, and companions in a directory with an awkward name that PATH does not have."""
    case.place.put(".git/hooks/pre-commit", b"#!/usr/bin/env bash\n", 0o755)
    case.place.tools.rename(case.place.tree / case.name)


def paste(case: Case, advice: re.Match[str]) -> None:
    """Add a line to a file, which is named before it."""
    path, _, line = advice[1].partition(": ")
    case.stage(case.place.get(path) + f"{line}\n".encode(), path)


def paste_into_hook(case: Case, advice: re.Match[str]) -> None:
    """Add the line to the hook, which refuses plaintext then. Only a further installation needs that it is gone."""
    case.place.put(".git/hooks/pre-commit", f"#!/usr/bin/env bash\n{advice[1]}\n".encode(), 0o755)
    case.stage(MARKED.encode(), ".gitattributes")
    case.stage(TEXT, "a.yml")
    assert "a.yml is not encrypted\n" in case.place.shell("git commit -qm plaintext").stderr
    case.shell("rm .git/hooks/pre-commit", ".")


def resolve(case: Case, advice: re.Match[str]) -> None:
    case.run(f"{advice[1]} {OLD}")
    case.stage(case.place.get(case.name))


def restore_and_add(case: Case, advice: re.Match[str]) -> None:
    case.put(OLD_VAULT)
    case.shell(advice[1])


ROWS = {
    "damage": Row(
        fault=staged(OLD_VAULT, OLD_VAULT[:-99]),
        command=HOOK,
        advice="for example with `(git .*)`; to allow",
        act=type_advice,
    ),
    "a damaged value": Row(
        fault=staged(block("old"), block("old")[:-99]),
        command=HOOK,
        advice="for example with `(git .*)`; to allow",
        act=type_advice,
    ),
    "plaintext": Row(
        fault=staged(OLD_VAULT, TEXT), command=HOOK, advice="at the end of (.*)", act=paste, plaintexts=[]
    ),
    "plain values": Row(
        fault=staged(VALUES, PLAIN), command=HOOK, advice="at the end of (.*)", act=paste, plaintexts=[]
    ),
    "a tag": Row(
        fault=staged(block("old"), TAGGED),
        command=HOOK,
        advice="encrypt the text with (.*?),",
        act=resolve,
        plaintexts=[TEXT, b"x"],
        editor="sed -i 's/y: 1/y: 2/' \"$1\"",
    ),
    "marked": Row(
        fault=staged(b"", TEXT),
        command=HOOK,
        advice="at the end of (.*)",
        act=paste,
        plaintexts=[],
        attributes=MARKED,
    ),
    "markers": Row(
        fault=merged(*VAULTS, is_added=True),
        command=HOOK,
        advice="conflict, for example with (.*?);",
        act=resolve,
        plaintexts=[THEIRS],
        editor=TAKE_THEIRS,
    ),
    "unmerged": Row(fault=merged(*VAULTS), command=HOOK, advice="and run `(.*)`", act=restore_and_add),
    "no settings": Row(
        fault=written(OLD_VAULT),
        command=f"{HOOK} --install",
        advice="to set them up, run this with passwords:\n  (.*)",
        act=run_with_advice(rf"{HOOK} \1"),
    ),
    "another hook": Row(
        fault=put_another_hook,
        command=f"./A_FILE/{HOOK} --install",
        advice="add this line below its first one: (.*)",
        act=paste_into_hook,
    ),
    "a shallow clone": Row(fault=use_shallow_clone, command=f"{HOOK} --all", advice="run `(.*?)`, or", act=type_advice),
}


@each_stand
@pytest.mark.parametrize("row", ROWS.values(), ids=ROWS)
def test_hook(place: Place, row: Row, stand: Stand) -> None:
    check_row(place, row, stand)


# What has a meaning in a shell, a pattern, an option, a revision or a message, or is no character.
SIGNS = [*" '\"#!?*[]{}()<>|&;$`\\~^:%,=@+-\t\n\r\x1b\xa0ü\u2028日", os.fsdecode(b"\xff")]
NAMES = [f"{sign}a{sign}{number}.yml{sign}" for number, sign in enumerate(SIGNS)]
NAMES += [f"in {sign} it/{number}.yml" for number, sign in enumerate(SIGNS)]
NAMES += ["--", "-rf", "HEAD", "!a.yml", "#a.yml", '"a.yml"', ":/a.yml", ":(top)a.yml", "\\x61.yml", ".a.yml"]


@pytest.mark.usefixtures("git")
def test_no_other_file(place: Place) -> None:
    """The line for a file matches no other one, whatever is in place of its signs."""
    under_git(place, "")
    for name in NAMES:
        line = make_line(os.fsencode(name))
        place.put(".gitattributes", os.fsencode(line) + b"\n")
        alike = {name.replace(sign, other) for sign in SIGNS for other in (sign, "", "x", "xx", "x/x")}
        alike = {each for each in alike if os.path.normpath(each) == each and not each.startswith("/")}
        asked = b"\0".join(map(os.fsencode, alike))
        fields = place.run_on(asked, "git", "check-attr", "-z", "--stdin", "ansible-vault").stdout.split(b"\0")
        values = dict(zip(map(os.fsdecode, fields[::3]), fields[2::3]))
        assert values.keys() >= alike, "git answers"
        assert {each for each, value in values.items() if value == b"unset"} == {name}, line

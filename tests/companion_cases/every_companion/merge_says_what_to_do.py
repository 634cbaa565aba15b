"""Messages of ansible-vault-merge on conflicts are acted on in the very state in which git leaves the file: each
command that one names helps, and one that would not help is not named."""

import re
from typing import NamedTuple

import pytest

from companion_cases import EDIT, MERGE, Place, block, edit, sealed
from companion_cases.every_companion.what_to_do import TAKE_THEIRS, Stand, each_stand
from companion_cases.repository import fork, set_driver, under_git
from lib.needs import needs, needs_pyyaml

POINTER = b"version https://git-lfs.github.com/spec/v1\noid sha256:%s\nsize 9\n"
LINES = b"1\n2\n3\n"
VALUE, LIST = block("old", name="v"), b"l:\n- 1\n- 2\n- 3\n"
FLOW = b"l: [\n  1,\n  2,\n  3,\n  4,\n  ]\n"


class Conflict(NamedTuple):
    """Base, ours and theirs; part of the message; whether an edit resolves it; and its editor and further options."""

    versions: list[bytes]
    why: str
    is_edited: bool = True
    options: str = ""
    editor: str = TAKE_THEIRS


def vaults(*texts: bytes) -> list[bytes]:
    return [sealed("old", text) for text in texts]


CONFLICTS = {
    "the same line": Conflict(vaults(b"a\n", b"b\n", b"c\n"), "both sides changed the same or adjacent lines"),
    "adjacent lines": Conflict(
        vaults(LINES, LINES.replace(b"1", b"x"), LINES.replace(b"2", b"y")), "both sides changed the same or adjacent"
    ),
    "a value": Conflict([block("old", text) for text in (b"a", b"b", b"c")], "1 conflict"),
    "two values": Conflict(
        [block("old", text) + LIST + b"- 4\n" + block("old", text, name="z") for text in (b"a", b"b", b"c")],
        "2 conflicts",
    ),
    "labels": Conflict(
        [sealed("dev", b"a\n", "dev"), sealed("dev", b"b\n", "dev"), sealed("prod", b"c\n", "prod")],
        "the labels differ: dev in ours, prod in theirs; choose one with --encrypt-vault-id",
        options="--encrypt-vault-id=prod",
    ),
    "a base of another password": Conflict(
        [sealed("new"), *vaults(b"b\n", b"c\n")], "base: no secret decrypts this vault"
    ),
    "lines that are no YAML together": Conflict(
        [VALUE + text for text in (FLOW, FLOW.replace(b"[", b'"').replace(b"]", b'"'), FLOW.replace(b"3", b'"3"'))],
        "git can merge its lines, but then line",
        editor="""sed -i 's/"3"/3/' "$1\"""",
    ),
    "a vault and a text": Conflict(
        [sealed("old"), sealed("old", b"x\n"), b"y: 1\n"], "one side is a vault and the other is not", is_edited=False
    ),
    "pointers": Conflict(
        [POINTER % (digit * 64) for digit in (b"0", b"1", b"2")], "it is a pointer of git-lfs", is_edited=False
    ),
    "no text": Conflict(vaults(b"a\0\n", b"b\0\n", b"c\0\n"), "git merge-file cannot merge it", is_edited=False),
    "lines like markers": Conflict(
        [VALUE + b"t: |\n" + text + b"\n" for text in (b"  a\n", b"  b\n=======\n", b"  c\n")],
        "it has lines that look like git's conflict markers",
        is_edited=False,
    ),
}


def list_passwords(place: Place) -> list[str]:
    return [*place.by_file("old"), *place.by_id("dev", "dev"), *place.by_id("prod", "prod")]


def merge(place: Place, stand: Stand, conflict: Conflict) -> str:
    """Merge two branches with the driver, and return what it prints."""
    needs("git", "bash")
    needs_pyyaml()
    under_git(place, "* merge=ansible-vault\n")
    set_driver(place, *list_passwords(place))
    place.put("inner/a.txt", b"")
    fork(place, *({stand.name: content} for content in conflict.versions))
    done = place.shell("git merge theirs")
    printed = "".join(re.findall(f"(?m)^{MERGE}: .*\n", done.stderr))
    assert conflict.why in printed, done
    return printed


@each_stand
@pytest.mark.parametrize("conflict", CONFLICTS.values(), ids=CONFLICTS)
def test_sides(place: Place, conflict: Conflict, stand: Stand) -> None:
    """The command takes the side that it names, from wherever the user stands."""
    printed = merge(place, stand, conflict)
    [command] = re.findall("take one side with `(.*?)` or with `--theirs`\n", printed)
    for number, side in enumerate(("--ours", "--theirs"), 1):
        done = place.shell(command.replace("--ours", side), "bash", stand.folder)
        assert (done.returncode, place.get(stand.name)) == (0, conflict.versions[number]), done


@each_stand
@pytest.mark.parametrize("conflict", CONFLICTS.values(), ids=CONFLICTS)
def test_edit(place: Place, conflict: Conflict, stand: Stand) -> None:
    """An edit is named if it resolves the conflict, and only then. It may misread lines like markers."""
    printed = merge(place, stand, conflict)
    assert (f"resolve with {EDIT}" in printed) == conflict.is_edited, printed
    done = edit(place, conflict.editor, *list_passwords(place), *conflict.options.split(), "--", stand.name)
    if "markers" not in conflict.why:
        assert (done.returncode == 0) == conflict.is_edited, done
        assert (b"<<<<<<<" in place.get(stand.name)) != conflict.is_edited, "the markers"

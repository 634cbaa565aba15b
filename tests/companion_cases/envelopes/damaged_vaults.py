"""Damaged vaults: each companion calls one damaged if the hook does, and does not ask for its password."""

import re
from random import Random

import pytest

from companion_cases import CHECK, HOOK, ROTATE, TEXTCONV, WITH, Place, edit, sealed
from companion_cases.repository import add_and_commit, under_git
from lib.needs import needs
from model.vaults import yaml_block

SEED, COUNT = 8, 40
VAULT = sealed("old")
OLD, NEW = "--vault-password-file ../secrets/old", "--new-vault-password-file ../secrets/new"
SHOWN = "it is damaged"
# How many of the vaults each companion shows or edits one by one.
ONE_BY_ONE = 5


def damage(random: Random) -> bytes:
    """Return a vault from which something is cut, or in which characters differ. The first word stays."""
    start = random.randrange(len(b"$ANSIBLE_VAULT"), len(VAULT) - 1)
    end = random.choice([start, start + 1, start + random.randrange(200), len(VAULT)])
    return VAULT[:start] + random.choice([b"", b"0", b"z", b"\n", b";"]) + VAULT[end:]


def put_damaged(place: Place) -> dict[str, bytes]:
    """Commit vaults and damage them. Return those that the hook calls damaged: some can still be whole."""
    needs("git")
    random = Random(SEED)
    contents = {f"{number:02}.yml": damage(random) for number in range(COUNT)}
    under_git(place, "")
    for name in contents:
        place.put(name, VAULT)
    add_and_commit(place)
    for name, content in contents.items():
        place.put(name, content)
    place.run("git", "add", "-A")
    named = re.findall(r"(\d\d\.yml) is a damaged vault", place.run(HOOK).stderr)
    damaged = {name: contents[name] for name in named}
    assert 10 < len(damaged) < COUNT, "some of the vaults"
    return damaged


def check_unchanged(place: Place, damaged: dict[str, bytes]) -> None:
    assert {name: place.get(name) for name in damaged} == damaged, "damaged vaults stay"


@pytest.mark.parametrize("line", (f"{CHECK} {OLD} .", f"{ROTATE} {OLD} {NEW} .", f"{WITH} rekey {OLD} {NEW} *.yml"))
def test_several(place: Place, line: str) -> None:
    """The message of each file says that it is damaged if the hook does, and then does not ask for its password."""
    damaged = put_damaged(place)
    done = place.shell(line)
    messages = {found[1]: found[0] for found in re.finditer(r"^.*?(\d\d\.yml): .*$", done.stderr, re.MULTILINE)}
    assert {name for name, message in messages.items() if SHOWN in message} == damaged.keys(), done.stderr
    asked = [name for name in damaged if "name its password" in messages[name]]
    assert asked == [], "whose password is asked for"
    check_unchanged(place, damaged)


@pytest.mark.parametrize("is_value", (False, True), ids=["a vault", "a value"])
def test_one(place: Place, is_value: bool) -> None:
    """What shows, decrypts or edits one file says that it is damaged, and starts no editor."""
    damaged = put_damaged(place)
    for name in sorted(damaged)[:ONE_BY_ONE]:
        file = name
        if is_value:
            file = "values.yml"
            place.put(file, yaml_block(damaged[name], b"x"))
        else:
            decrypt = place.shell(f"{WITH} decrypt {OLD} {file}")
            assert SHOWN in decrypt.stderr, f"decrypt: {damaged[name]!r}"
        textconv = place.shell(f"{TEXTCONV} {OLD} {file}")
        assert SHOWN in textconv.stderr, f"textconv: {damaged[name]!r}"
        edited = edit(place, "touch started", *place.by_file("old"), file)
        assert SHOWN in edited.stderr, f"edit: {damaged[name]!r}"
        assert "started" not in place.names(), f"an editor was started: {damaged[name]!r}"
    check_unchanged(place, damaged)

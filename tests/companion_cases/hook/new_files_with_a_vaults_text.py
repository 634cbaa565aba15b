"""ansible-vault-hook: vaults that are removed, in daily commits, in leaks, and with texts of random lengths."""

import subprocess
from pathlib import Path
from random import Random

import pytest
from hypothesis import HealthCheck, given, settings
from hypothesis import strategies as st

from companion_cases.hook.around_vaults import EXPRESSIONS, NOISE, NOTE, OTHER_CONFIG, PLAY, SMTP, TASKS, VARS, Files
from companion_cases.hook.around_vaults import vault
from companion_cases.hook.daily_commits import DAILY
from companion_cases.hook.vault_leaks import LEAKS
from companion_cases.repository import find_refused_files, stage_alone
from model.vaults import serialized

# Files that stay.
HEAD: Files = {
    "site.yml": PLAY,
    "group_vars/all/vars.yml": VARS,
    "group_vars/web.yml": vault(SMTP),
    "roles/nginx/tasks/main.yml": TASKS,
    "roles/nginx/defaults/main.yml": NOISE,
    "roles/nginx/files/config.json": OTHER_CONFIG,
}


def list_refused(folder: Path, before: Files, after: Files) -> set[str]:
    """Return the files that the hook refuses of a change. Files of HEAD stay if the change does not name them."""
    stage_alone(folder, HEAD | before)
    subprocess.run(["git", "commit", "-qm", "before", "--allow-empty", "--no-verify"], check=True)
    kept = {name: content for name, content in HEAD.items() if name not in before}
    stage_alone(folder, kept | after)
    return find_refused_files()


# Each is as long as the vault's text, by chance.
FALSE_ALARMS = {
    "a public key as long",
    "a token's public key",
    "a public key of PGP",
    "many roles, one of them with as long a file",
    "a host's network",
    "another address",
    "another domain",
}
# What LIMITATIONS in the manual page names.
MISSED = {
    # It has an encrypted value.
    "its values",
    # It is edited in the same commit.
    "a directory, and a key more",
    "two files in a directory",
    "another directory, and a key more",
    "a copy, and a key less",
    # It has another name and another directory.
    "another directory of another group",
    "a lock file of git-lfs",
    # Its file was there before, or it is a comment or a key.
    "a file that was there",
    "a comment",
    "a key of a mapping",
}


def test_daily_commits(own_repository: Path) -> None:
    alarms = {what for what, change in DAILY.items() if list_refused(own_repository, *change)}
    assert alarms == FALSE_ALARMS and len(DAILY) >= 70


def test_leaks(own_repository: Path) -> None:
    missed = set()
    for what, (before, after, name) in LEAKS.items():
        if name not in list_refused(own_repository, before, after):
            missed.add(what)
    assert missed == MISSED and len(LEAKS) >= 70


# Where a vault may be and, by its length, its plaintext.
MOVES = [
    ("a/x.yml", name) for name in ("b/x.yml", "b/X.YML", "a/x.yml.bak", "a/x.txt", "a/y.yml", "a/x/y.yml", "b/c/x")
]
MOVES += [("b/x/y.yml", "b/x.yaml"), ("b/x/y.yml", "b/x"), ("files/x.key", "files/x.pem"), ("c/main.yml", "d/main.yml")]
# The same, whatever its length.
READ_INSTEAD = [("a/x.yml", name) for name in ("a/x.yaml", "a/x.JSON", "a/x")] + [("a/x", "a/x.yml")]
# Where it is not looked for.
ELSEWHERE = [("a/x.yml", name) for name in ("b/y.yml", "b/x.y.yml", "b/x/y.yml", "x/main.yml", "b/xx.yml")]


def make_vault(random: Random, length: int) -> bytes:
    """A vault of a text of this length. Its form is right, whatever the text."""
    return serialized(*(random.randbytes(size) for size in (32, 32, length + 16 - length % 16)))


def make_text(random: Random, length: int) -> bytes:
    return b"k: " + random.choice([b"x", b"yz"]).ljust(length - 4, b"z") + b"\n"


LENGTHS = st.integers(5, 80)


@settings(max_examples=60, deadline=None, database=None, suppress_health_check=[HealthCheck.function_scoped_fixture])
@given(random=st.randoms(use_true_random=False), length=LENGTHS, other=LENGTHS)
def test_lengths(own_repository: Path, random: Random, length: int, other: int) -> None:
    """The length of a removed vault tells that of its text within 16 bytes, and only such a file is refused, unless
    Ansible reads it instead."""
    old, new = random.choice([*MOVES, *READ_INSTEAD, *ELSEWHERE])
    is_as_long = other // 16 == length // 16
    is_refused = (old, new) in READ_INSTEAD or is_as_long and (old, new) in MOVES
    refused = list_refused(own_repository, {old: make_vault(random, length)}, {new: make_text(random, other)})
    assert refused == ({new} if is_refused else set())


NAMES = ["id_rsa", "x.yml", "x.key", "db.example.org", ".netrc"]
SUFFIXES = [".bak", ".dec", ".orig", ".1", "~", "~~", ".~1~", ".bak~"]


@pytest.mark.parametrize("suffix", SUFFIXES)
def test_suffixes(own_repository: Path, suffix: str) -> None:
    """A vault's text is found under its name and a further suffix, also a backup's, whether the vault stays or not."""
    random = Random(suffix)
    vaults = {f"{number}/{name}": make_vault(random, 20 + 16 * number) for number, name in enumerate(NAMES)}
    texts = {f"{name}{suffix}": make_text(random, 20 + 16 * number) for number, name in enumerate(vaults)}
    assert list_refused(own_repository, vaults, texts) == {*texts}
    assert list_refused(own_repository, vaults, vaults | texts) == {*texts}


@pytest.mark.parametrize("content", (NOTE, EXPRESSIONS), ids=["comments", "expressions"])
def test_without_content(own_repository: Path, content: bytes) -> None:
    """Comments and expressions may take the place of a vault if Ansible reads its file, and only then."""
    of_yaml, of_others = ["a.yml", "b.yaml", "c.json", "d.YML"], ["e", "f.key", "g.env", "h.yml~", "i.j2"]
    names = [*of_yaml, *of_others]
    before = dict.fromkeys(names, make_vault(Random(1), 20))
    assert list_refused(own_repository, before, dict.fromkeys(names, content)) == {*of_others}


def test_other_suffixes(own_repository: Path) -> None:
    """Beside a vault that stays, another suffix takes the place of the vault's, or follows it."""
    random = Random(1)
    vaults = {name: make_vault(random, 20) for name in ("a.yml", "b.yaml", "c.json", "e", "f.key", "g.env")}
    texts = {
        name: make_text(random, 20) for name in ("a.txt", "b.dec", "c.old", "e.bak", "f.txt", "g.bak", "f.key.txt")
    }
    refused = {*texts}
    assert list_refused(own_repository, vaults, vaults | texts) == refused

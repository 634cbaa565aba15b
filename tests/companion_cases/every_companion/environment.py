"""Each variable of the environment that the companions read: unset, empty and set.

An empty variable is like one that is unset, but for Ansible's settings: there it overrides `ansible.cfg`.
"""

import re
import sys
from collections.abc import Callable
from typing import NamedTuple

import pytest

from companion_cases import CHANGE, CHECK, COMPANIONS, EDIT, HOOK, TEXT, WITH, Place, described, sealed
from lib.needs import needs, needs_root

OLD, BOTH = "--vault-id=../secrets/old", "--vault-id=dev@../secrets/dev --vault-id=prod@../secrets/prod"
NO_REPOSITORY = f"{HOOK}: git rev-parse failed: fatal: not a git repository: ''\n"
# In place of the tree's parent directory.
TOP = "{}"


def find_editor(place: Place) -> str:
    """Return which of the editors on PATH is run."""
    place.put("a.yml", sealed("old"))
    for name in ("vi", "first", "second", "third"):
        place.script(f'echo {name} > "$1"', f"tools/{name}")
    done = place.shell(f"{EDIT} {OLD} a.yml")
    assert done.returncode == 0, done
    return place.run_on(b"", WITH, "view", OLD, "a.yml").stdout.decode().strip()


def find_draft(place: Place, before: str = "") -> str:
    """Return the directory in which an edit makes its private one."""
    place.put("a.yml", sealed("old"))
    editor = place.script('dirname "$(dirname "$1")" > ../where; echo more >> "$1"', "editor")
    done = place.shell(f"{before} {EDIT} {OLD} a.yml", EDITOR=editor)
    assert done.returncode == 0, done
    return (place.path / "where").read_text().strip()


def find_draft_on_disk(place: Place) -> str:
    """The same where no directory in memory can be written to. No other process sees that."""
    needs("unshare")
    needs_root()
    place.environment.pop("XDG_RUNTIME_DIR")
    return find_draft(place, "unshare --mount sh -c 'mount -t tmpfs -o ro tmpfs /dev/shm && exec \"$@\"' sh")


def find_rescue_copy(place: Place) -> str:
    """Return the directory in which the copy of a failed edit is kept."""
    place.put("a.yml", sealed("old"))
    place.shell(f"{EDIT} {OLD} a.yml", EDITOR=place.script(f"{CHANGE}; exit 3", "editor"))
    folders = [path.parent.parent for path in place.path.rglob("ansible-vault/*") if path.is_file()]
    return " ".join(map(str, folders))


def find_passwords(place: Place) -> str:
    """Return which passwords are found. The user's own file of settings names dev, another one old."""
    place.put("../.ansible.cfg", b"[defaults]\nvault_identity_list = secrets/dev, ../secrets/dev\n")
    place.put("../other.cfg", b"[defaults]\nvault_password_file = secrets/old\n")
    return list_decrypted(place)


def find_password_file(place: Place) -> str:
    place.put("../.ansible.cfg", f"[defaults]\nvault_password_file = {place.secret('dev')}\n".encode())
    return list_decrypted(place)


def list_decrypted(place: Place) -> str:
    for name in ("dev", "old"):
        place.put(f"{name}.yml", sealed(name))
    done = place.run(CHECK, ".")
    return " ".join(re.findall(r"(\w+)\.yml: default: decrypted", done.stdout))


def find_label(place: Place) -> str:
    """Return the label of what is encrypted, empty if several passwords are refused."""
    place.put("../.ansible.cfg", b"[defaults]\nvault_encrypt_identity = dev\n")
    place.put("a.yml", TEXT)
    # Beside options, the settings of a file that the current directory does not have count.
    place.shell(f"{WITH} encrypt {BOTH} a.yml")
    return described(place.get("a.yml"))[0].decode().partition("AES256;")[2]


def needs_match(place: Place) -> str:
    place.put("../.ansible.cfg", b"[defaults]\nvault_id_match = yes\n")
    place.put("a.yml", sealed("old", label="another"))
    done = place.shell(f"{WITH} view {OLD} a.yml")
    return "another label is refused" if done.returncode else "another label is decrypted"


def is_asked(place: Place) -> str:
    """Return whether a password is asked for, where there is no terminal."""
    place.put("../.ansible.cfg", b"[defaults]\nask_vault_pass = yes\nvault_password_file = secrets/old\n")
    place.put("a.yml", sealed("old"))
    done = place.run("setsid", "--wait", CHECK, "a.yml")
    return "asked" if "terminal" in done.stderr else "not asked"


def find_tool(place: Place) -> str:
    """Return whether the tool on PATH is chosen, and not one of the current directory. There may be Ansible's."""
    place.put("ansible-vault", b"#!/bin/sh\n: > ../ran\n", 0o755)
    (place.path / "other").mkdir()
    (place.tools / "ansible-vault").rename(place.path / "other/ansible-vault")
    done = place.run(sys.executable, "-IB", str(place.tools / CHECK), "--version")
    assert not (place.path / "ran").exists(), "the current directory is not searched"
    return "found" if f" {place.path}/other/ansible-vault\n" in done.stdout else "not found"


def find_repository(place: Place) -> str:
    """Return which repository the hook looks at: the one here, or another one beside it."""
    place.put(".gitattributes", b"*.yml diff=ansible-vault\n")
    place.put("other.yml", TEXT)
    place.shell(
        "unset GIT_DIR; git init -q; git add -A; mv .git ../other.git; mv other.yml here.yml; git init -q; git add -A"
    )
    done = place.run(HOOK)
    return " ".join(re.findall(r"(\w+)\.yml is not encrypted", done.stderr)) or done.stderr


class Variable(NamedTuple):
    """The value when it is set; what finds out what it leads to; what that is if the variable is unset, empty and set;
    and the other variables."""

    value: str
    find: Callable[[Place], str]
    unset: str
    empty: str
    is_set: str
    others: dict[str, str] = {}


VARIABLES = {
    "EDITOR": Variable("first", find_editor, unset="vi", empty="vi", is_set="first"),
    "VISUAL": Variable(
        "second", find_editor, unset="first", empty="first", is_set="second", others={"EDITOR": "first"}
    ),
    "ANSIBLE_EDITOR": Variable(
        "third", find_editor, unset="second", empty="second", is_set="third", others={"VISUAL": "second"}
    ),
    "XDG_RUNTIME_DIR": Variable(
        f"{TOP}/runtime", find_draft, unset="/dev/shm", empty="/dev/shm", is_set=f"{TOP}/runtime"
    ),
    "TMPDIR": Variable(f"{TOP}/temporary", find_draft_on_disk, unset="/tmp", empty="/tmp", is_set=f"{TOP}/temporary"),
    "XDG_STATE_HOME": Variable(
        f"{TOP}/state",
        find_rescue_copy,
        unset=f"{TOP}/.local/state",
        empty=f"{TOP}/.local/state",
        is_set=f"{TOP}/state",
    ),
    "PATH": Variable(f"{TOP}/other", find_tool, unset="not found", empty="not found", is_set="found"),
    # git refuses an empty one.
    "GIT_DIR": Variable(f"{TOP}/other.git", find_repository, unset="here", empty=NO_REPOSITORY, is_set="other"),
    "ANSIBLE_CONFIG": Variable("../other.cfg", find_passwords, unset="dev", empty="dev", is_set="old"),
    # Those of Ansible's settings.
    "ANSIBLE_VAULT_IDENTITY_LIST": Variable("../secrets/old", find_passwords, unset="dev", empty="", is_set="old"),
    "ANSIBLE_VAULT_PASSWORD_FILE": Variable("../secrets/old", find_password_file, unset="dev", empty="", is_set="old"),
    "ANSIBLE_VAULT_ENCRYPT_IDENTITY": Variable("prod", find_label, unset="dev", empty="", is_set="prod"),
    "ANSIBLE_VAULT_ID_MATCH": Variable(
        "False",
        needs_match,
        unset="another label is refused",
        empty="another label is decrypted",
        is_set="another label is refused",
    ),
    "ANSIBLE_ASK_VAULT_PASS": Variable("no", is_asked, unset="asked", empty="not asked", is_set="not asked"),
}
STATES = ["unset", "empty", "set"]


@pytest.mark.parametrize("state", STATES)
@pytest.mark.parametrize("name", VARIABLES)
def test_variable(place: Place, name: str, state: str) -> None:
    row = VARIABLES[name]
    place.environment |= row.others
    place.environment.pop(name, None)
    if state != "unset":
        place.environment[name] = "" if state == "empty" else row.value.format(place.path)
    wanted = {"unset": row.unset, "empty": row.empty, "set": row.is_set}[state]
    assert row.find(place) == wanted.format(place.path)


def test_every_variable() -> None:
    """The table has each variable that the code reads, and PATH."""
    code = "".join(path.read_text() for path in COMPANIONS.rglob("*.py"))
    named = set(re.findall(r'"(ANSIBLE_[A-Z_]+|XDG_[A-Z_]+|GIT_DIR|EDITOR|VISUAL|TMPDIR)"', code))
    assert named - {"ANSIBLE_VAULT", "ANSIBLE_LOCAL_TEMP"} | {"PATH"} == VARIABLES.keys()

"""The command lines of the Ansible Vault guide, run by Ansible's tool and by the alias for ansible-vault-with."""

import re
from typing import NamedTuple

import pytest

from companion_cases import FOUND, PASSWORDS, TEXT, WITH, Companions, Place, described, sealed
from companion_cases.terminal import FOR_ANSIBLE, Session, ask, type_for_ansible
from lib.ansible import ansible_release
from lib.needs import needs, needs_ansible

# Password files of the guide.
FILES = {"a_password_file": "dev", "multi_password_file": "prod", "ppold": "old", "new": "new"}
NAMES = ["foo.yml", "bar.yml", "baz.yml"]
ALL = " ".join(NAMES)
DEV = "--vault-id dev@a_password_file"
# Questions, and what is typed for each: the name of a password, or a text.
Typed = list[tuple[str, str]]
OLD: Typed = [("Vault password: ", "old")]
NEW: Typed = [("New Vault password: ", "new"), ("Confirm New Vault password: ", "new")]
VARIABLE = "Variable name (enter for no name): "
HIDDEN: Typed = [(VARIABLE, "one"), ("String to encrypt (hidden): ", " first ")]
SHOWN: Typed = [(VARIABLE, ""), ("String to encrypt:", " first ")]


class Row(NamedTuple):
    """A command line after `ansible-vault`."""

    line: str
    # The password of the three files, which are plaintext without one.
    password: str = ""
    typed: Typed = []
    # The first release of Ansible's tool that does the same.
    since: tuple[int, int] = (0, 0)


def twice(label: str) -> Typed:
    """Return the questions for a new password of this label."""
    return [(f"New vault password ({label}): ", "new"), (f"Confirm new vault password ({label}): ", "new")]


ROWS = [
    Row("create --vault-id test@multi_password_file new.yml"),
    Row("create --vault-id my_new_password@prompt new.yml", "", twice("my_new_password")),
    Row("create new.yml", "", NEW),
    Row(f"encrypt {ALL}", "", NEW),
    Row("encrypt foo.yml --vault-id dev@~/tree/a_password_file"),
    Row(f"view {ALL}", "old", OLD),
    Row("edit --vault-id vault2@prompt foo.yml", "old", [("Vault password (vault2): ", "old")]),
    Row(f"edit --vault-password-file ppold {ALL}", "old"),
    Row(f"rekey {ALL}", "old", OLD + NEW),
    Row(f"rekey --vault-id preprod1@ppold --new-vault-id preprod2@prompt {ALL}", "old", twice("preprod2")),
    Row("rekey --vault-i ppold --new-vault-p new foo.yml", "old"),
    Row("decrypt --vault-pass-file=$HOME/tree/ppold foo.yml", "old"),
    Row("encrypt_string --ask-vault-pass 'a' --name b", "", NEW),
    Row(f"encrypt_string {DEV} $' first\\n' 'größe: # two ' 'third' -n one --name two"),
    Row(f"encrypt_string {DEV} 'first' --name one --stdin-name two <<< ' second '"),
    Row(f"encrypt_string {DEV} --stdin-name 'db_password' --output new.yml <<< letmein", since=(2, 14)),
    Row(f"encrypt_string {DEV} -p 'second' --name two --output new.yml", "", HIDDEN, (2, 14)),
    Row(f"encrypt_string {DEV} --prompt --show-input 'second' --output new.yml", "", SHOWN, (2, 14)),
]


def opened(data: bytes) -> bytes:
    """Return the text without empty lines, and with a description of each envelope in its place."""
    return re.sub(rb"\n+", b"\n", FOUND.sub(lambda found: repr(described(found[0])).encode(), data).strip())


def outcome(
    place: Place, row: Row, tool: str, line: str, **variables: str
) -> tuple[tuple[bool, bytes, dict[str, bytes]], Session]:
    """Return whether the run succeeded, its output and each file except password files; and the session."""
    for name, password in FILES.items():
        place.put(name, PASSWORDS[password] + b"\n", 0o600)
    for number, name in enumerate(NAMES):
        place.put(name, sealed(row.password, TEXT * number) if row.password else TEXT * number)
    text = f"shopt -s expand_aliases\nalias ansible-vault={tool}\nansible-vault {line}\n"
    answers = [(question, PASSWORDS.get(typed, typed.encode()) + b"\n") for question, typed in row.typed]
    editor = place.script('echo more >> "$1"', "editor")
    session = ask(place, "bash", "-c", text, answers=answers, EDITOR=editor, **variables)
    files = {name: opened(data) for name, data in place.files().items() if name not in FILES}
    return (session.returncode == 0, opened(session.stdout.encode()), files), session


@pytest.mark.parametrize("row", ROWS, ids=[row.line for row in ROWS])
def test_lines(cases: Companions, row: Row) -> None:
    """Questions are asked at the terminal, although no standard stream is one."""
    needs("bash")
    ours, session = outcome(cases.place(), row, WITH, row.line)
    assert ours[0] is True, f"status ({session.stderr} {session.shown})"
    ansible = needs_ansible()
    if ansible_release() >= row.since:
        line = type_for_ansible(row.line)
        # It asks for strings through its standard streams.
        line += " < /dev/tty > /dev/tty 2>&1" if row.typed and "--output" in line else ""
        theirs, session = outcome(cases.place(), row, ansible, line, **FOR_ANSIBLE)
        assert ours == theirs, f"as Ansible's tool ({session.stderr})"

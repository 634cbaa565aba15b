"""The program and Ansible's own tool agree: each reads what the other writes, both write the same bytes for one salt,
password and label, and both say what docs/coming-from-ansible.md says.

`lib/ansible.py` finds Ansible's tool (Debian's package `ansible-core`).
"""

import os
import re
import subprocess
from pathlib import Path

import pytest

from lib.ansible import ansible_release
from lib.cases import Cases, by_file, by_id
from lib.needs import needs_ansible
from lib.paths import ROOT
from lib.processes import run
from lib.scripts import write_script
from model.vaults import seal, yaml_block

TEXTS = [(b"key: value\n" * (size // 11 + 1))[:size] for size in (0, 1, 15, 16, 17, 1 << 20)]
TEXTS += ['schlüssel: "größe"\n→\n'.encode(), bytes(range(256)), b"\r\n\n\r", b"a" * 15 + b"\x01"]
STRINGS = ["a secret", "größe →", "first\nsecond\n", "a" * 16]
RIGHT, NEW = b"the right password", b"the new one"
PAGE = ROOT / "docs" / "coming-from-ansible.md"
# Without the caller's settings for Ansible.
ENVIRONMENT = {name: value for name, value in os.environ.items() if not name.startswith("ANSIBLE_")}
ENVIRONMENT["LC_ALL"] = "C.UTF-8"


def salt_of(vault: bytes) -> bytes:
    inner = bytes.fromhex(b"".join(vault.split(b"\n")[1:]).decode())
    return bytes.fromhex(inner.split(b"\n")[0].decode())


class Both:
    """The two tools, with one password, for a label or for none."""

    def __init__(self, cases: Cases, ansible: str, label: str) -> None:
        self.cases = cases
        self.ansible = ansible
        self.label = label
        self.password, self.new = cases.file(RIGHT + b"\n"), cases.file(NEW + b"\n")
        self.options = by_id(self.password, label) if label else by_file(self.password)
        self.choice = ["--encrypt-vault-id", label] if label else []

    def run(self, command: list[str], **variables: str) -> subprocess.CompletedProcess[bytes]:
        """Run one of the tools where it finds no configuration file."""
        folder = self.cases.folder
        return run(command, cwd=folder, env={**ENVIRONMENT, "HOME": str(folder), **variables})

    def theirs(self, *words: str) -> bytes:
        done = self.run([self.ansible, *words])
        assert done.returncode == 0, f"Ansible's {words[0]} fails: {done.stderr.decode()}"
        return done.stdout

    def changed_by_them(self, words: list[str], contents: list[bytes]) -> list[bytes]:
        """Change all the files in one run of Ansible's tool, and return their contents."""
        paths = [self.cases.file(content) for content in contents]
        self.theirs(*words, *paths)
        return [Path(path).read_bytes() for path in paths]

    def sealed(self, text: bytes, salt: bytes) -> bytes:
        return seal(RIGHT, text, self.label.encode(), salt)


@pytest.fixture(params=["", "dev"], ids=["no label", "label dev"])
def both(cases: Cases, request: pytest.FixtureRequest) -> Both:
    return Both(cases, needs_ansible(), request.param)


def test_theirs_to_ours(both: Both) -> None:
    """Our program decrypts their vaults, and with their salts, encrypts to the same bytes."""
    vaults = both.changed_by_them(["encrypt", *both.options, *both.choice], TEXTS)
    for text, vault in zip(TEXTS, vaults, strict=True):
        salt = salt_of(vault)
        assert both.sealed(text, salt) == vault, "the tests' own vault"
        both.cases.decrypts(both.options, vault, text)
        both.cases.run(["encrypt", *both.options, "--salt-file", both.cases.file(salt)], text, out=vault)


def test_ours_to_theirs(both: Both) -> None:
    """They decrypt what we encrypt and what we rekey, and we read what they rekey."""
    vaults = [both.cases.run(["encrypt", *both.options], text, out=None) for text in TEXTS]
    assert both.changed_by_them(["decrypt", *both.options], vaults) == TEXTS
    new, words = by_id(both.new, "prod"), ["rekey", *both.options, "--new-vault-id", f"prod@{both.new}"]
    rekeyed = [both.cases.run(words, vault, out=None) for vault in vaults]
    assert both.changed_by_them(["decrypt", *new], rekeyed) == TEXTS
    option, value = both.options
    again = both.changed_by_them(["rekey", *new, option.replace("--", "--new-"), value], rekeyed)
    for text, vault in zip(TEXTS, again, strict=True):
        both.cases.run(["view", *both.options], vault, out=text)


@pytest.mark.parametrize("name", ["größe", ""], ids=["named", "unnamed"])
def test_blocks(both: Both, name: str) -> None:
    """Both make the same blocks, with a name or without one. `workflows.py` has one read by a playbook."""
    named = ["-n", name] if name else []
    shown = both.theirs("encrypt_string", *both.options, *both.choice, *named * len(STRINGS), *STRINGS)
    blocks = re.findall(rb"^\S.*\n(?: .*\n)+", shown.rstrip(b"\n") + b"\n", re.MULTILINE)
    for string, block in zip(STRINGS, blocks, strict=True):
        salt = salt_of(b"\n".join(line.strip() for line in block.split(b"\n")[1:]))
        assert yaml_block(both.sealed(string.encode(), salt), name.encode()) == block, "the tests' own block"
        salted = ["encrypt_string", *both.options, "--salt-file", both.cases.file(salt), *named, string]
        both.cases.run(salted, out=block)


# The command for each row of the messages in docs/coming-from-ansible.md.
REFUSED = {
    "the password is wrong": "view --vault-password-file wrong vault",
    "the input is not a vault": "view --vault-password-file right plain",
    "the vault is cut off in its first lines": "view --vault-password-file right cut",
    "the vault lacks its last line": "view --vault-password-file right short",
    "the vault is not hexadecimal": "view --vault-password-file right odd",
    "the plaintext is a vault": "encrypt --vault-password-file right --output new vault",
    "several passwords could encrypt": "encrypt --vault-id a@right --vault-id b@wrong --output new plain",
    "none has the label": "encrypt --vault-id a@right --encrypt-vault-id b --output new plain",
    "the password is empty": "view --vault-password-file empty vault",
    "the password file is missing": "view --vault-password-file missing vault",
    "the input file is missing": "view --vault-password-file right missing",
}
VAULT = seal(RIGHT, b"a: 1\n")
# The files that the commands name.
FILES = {"right": RIGHT, "wrong": NEW, "empty": b"", "plain": b"a: 1\n", "vault": VAULT, "cut": VAULT[:200]}
FILES["odd"] = VAULT.partition(b"\n")[0] + b"\nxyz\n"
FILES["short"] = VAULT[: VAULT.rindex(b"\n", 0, -1) + 1]
ROW = re.compile(r"^\| (.+) \| `(.+)` \| (\d) \| `(.+)` \| (\d) \|$", re.MULTILINE)
NOT_A_VAULT = "input is not vault encrypted data..."


def their_line(said: str) -> str:
    """Return what their message of the page is in the release that is tested."""
    if ansible_release() < (2, 19):
        return f"ERROR! {said}"
    if said == NOT_A_VAULT:
        said = said.capitalize()
        return f"[ERROR]: Failed to view '...': {said}" if ansible_release() >= (2, 22) else f"[ERROR]: {said}"
    return f"[ERROR]: ...{said}" if ansible_release() >= (2, 22) else f"[ERROR]: {said}"


def test_messages(cases: Cases) -> None:
    both, rows = Both(cases, needs_ansible(), ""), ROW.findall(PAGE.read_text())
    assert sorted(row[0] for row in rows) == sorted(REFUSED)
    assert NOT_A_VAULT in [row[1] for row in rows]
    for name, content in FILES.items():
        (cases.folder / name).write_bytes(content)
    for what, theirs, their_status, ours, our_status in rows:
        runs = (both.ansible, their_line(theirs), their_status), (cases.program, f"ERROR! {ours}", our_status)
        for tool, line, status in runs:
            done = both.run([tool, *REFUSED[what].split()])
            pattern = re.compile(".*".join(map(re.escape, line.split("..."))))
            assert done.returncode == int(status), f"status of {tool} if {what}"
            assert any(map(pattern.fullmatch, done.stderr.decode().splitlines())), (tool, what, done.stderr)


def test_salt_of_a_variable(both: Both) -> None:
    """As the page says, releases since 2.19 use it."""
    words = ["encrypt", *both.options, *both.choice, "--output", "-", both.cases.file(b"a: 1\n")]
    done = both.run([both.ansible, *words], ANSIBLE_VAULT_ENCRYPT_SALT="a salt")
    assert (salt_of(done.stdout) == b"a salt") == (ansible_release() >= (2, 19)), done.stderr


def test_failing_editor(both: Both) -> None:
    """As the page says, the text that it saved is encrypted, except in 2.22, where it is lost."""
    editor = write_script(both.cases.folder / "editor", 'echo "b: 2" >> "$1"; exit 1')
    path = Path(both.cases.file(both.sealed(b"a: 1\n", bytes(32))))
    done = both.run([both.ansible, "edit", *both.options, str(path)], EDITOR=str(editor))
    is_lost = ansible_release() >= (2, 22)
    assert (done.returncode != 0) == is_lost, done.stderr
    both.cases.decrypts(both.options, path.read_bytes(), b"a: 1\n" if is_lost else b"a: 1\nb: 2\n")

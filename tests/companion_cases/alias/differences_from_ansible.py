"""Each difference from Ansible's tool that docs/coming-from-ansible.md lists, run with both tools."""

import re
from typing import NamedTuple

import pytest

from companion_cases import FOUND, PASSWORDS, TEXT, WITH, Companions, Place, described, sealed
from companion_cases.terminal import FOR_ANSIBLE
from lib.ansible import ansible_release
from lib.needs import needs, needs_ansible
from lib.paths import ROOT

PAGE = ROOT / "docs" / "coming-from-ansible.md"
# The first and the third cell of a row of its first two tables of differences.
ROW = re.compile(r"^\| (.+?) \|.*\| (.*?) ?\|$", re.MULTILINE)
OLD, NEW = "--vault-password-file ../secrets/old", "--new-vault-password-file ../secrets/new"
DEV, PROD = "--vault-id dev@../secrets/dev", "--vault-id prod@../secrets/prod"
LIST = "ANSIBLE_VAULT_IDENTITY_LIST=dev@../secrets/dev,prod@../secrets/prod"
SETTING = "ANSIBLE_VAULT_PASSWORD_FILE=../secrets/old"
TYPED = "printf 'the password old\\n'"
TRACK = "git init -q; cp ../secrets/old pass; git add pass"
CONFIGURE = "printf '[defaults]\\nvault_password_file = script\\n' > ansible.cfg"


class Lines(NamedTuple):
    """Shell lines for which both tools do the same, and those for which they do not. What is compared is the status,
    the output and the content of files, and for some rows also the modes or the messages."""

    same: list[str] = []
    differ: list[str] = []
    looks_at: str = ""


# By the beginning of the first cell.
LINES = {
    "`encrypt FILE`, `decrypt FILE`": Lines([f"AV encrypt {OLD} plain.yml", f"AV decrypt {OLD} a.yml"]),
    "`encrypt` lets only the owner": Lines(differ=[f"AV encrypt {OLD} plain.yml"], looks_at="modes"),
    "several FILEs": Lines(
        [f"cat a.yml | AV decrypt {OLD} b.yml -"],
        [f"AV decrypt {OLD} a.yml dev.yml b.yml", f"AV view {OLD} dev.yml a.yml"],
    ),
    "`create`, `edit`": Lines([f"AV create {OLD} new.yml", f"AV edit {OLD} a.yml b.yml"]),
    "`create` makes the directory": Lines(differ=[f"AV create {OLD} new/new.yml"]),
    "the editor is `$EDITOR`": Lines(differ=[f"VISUAL='sed -i s/db/DB/' AV edit {OLD} a.yml"]),
    "the editor runs without a shell": Lines(differ=[f"EDITOR='x=y sed -i s/db/DB/' AV edit {OLD} a.yml"]),
    "`--ask-vault-password`, the source": Lines([f"{TYPED} | AV view --ask-vault-password a.yml"]),
    "`--ask-vault-password` beside": Lines(
        differ=[f"{TYPED} | AV view --ask-vault-password --vault-password-file ../secrets/dev a.yml"]
    ),
    "without a terminal, answers": Lines([f"{TYPED} | AV view a.yml"], ["printf 'x\\nx\\ntext\\n' | AV encrypt"]),
    "`ansible.cfg`, environment variables": Lines(
        [
            f"{SETTING} AV view {DEV} a.yml dev.yml",
            f"{SETTING} AV rekey {NEW} a.yml",
            f"{LIST} AV encrypt {OLD} --encrypt-vault-id prod plain.yml",
        ],
        [
            f"{SETTING} AV encrypt {DEV} plain.yml",
            f"{LIST} ANSIBLE_VAULT_ENCRYPT_IDENTITY=prod AV encrypt {OLD} plain.yml",
        ],
    ),
    "an executable password file": Lines(["AV view --vault-password-file ./script a.yml"]),
    "`encrypt_string` with several": Lines(
        [f"AV encrypt_string {OLD} a b -n one"], [f"echo text | AV encrypt_string {OLD} a --prompt --stdin-name x"]
    ),
    "the output of `encrypt_string`": Lines(differ=[f"AV encrypt_string {OLD} a"]),
    "a `--name` without": Lines(differ=[f"AV encrypt_string {OLD} --name x < plain.yml"]),
    "`~` and `$HOME`": Lines(
        ["AV view --vault-id dev@~/secrets/dev dev.yml", "AV view --vault-password-file=~/secrets/old a.yml"]
    ),
    "abbreviated options": Lines(
        ["AV view --vault-pass-file ../secrets/old a.yml", "AV view --vault-password-f ../secrets/old a.yml"]
    ),
    "options follow the command": Lines(differ=[f"AV {OLD} view a.yml"]),
    "command lines that do not parse": Lines(
        differ=[f"AV encrypt {OLD} --output x plain.yml a.yml", f"AV encrypt_string {OLD} ''"]
    ),
    "messages after success": Lines(differ=[f"AV rekey {OLD} {NEW} a.yml"], looks_at="messages"),
    "a password file that is itself a vault": Lines(
        differ=["AV view --vault-id ../secrets/old --vault-id dev@sealed.pass dev.yml"]
    ),
    "a missing or empty password file": Lines(
        [f"{SETTING} {LIST},/none AV view a.yml"], [f"AV view --vault-password-file none {OLD} a.yml"]
    ),
    "if the password to encrypt with is missing": Lines(differ=[f"AV encrypt --vault-id none {OLD} plain.yml"]),
    "spaces around a script's output": Lines(differ=["AV encrypt --vault-password-file ./spaces plain.yml"]),
    "a password script can read": Lines(differ=["AV view --vault-password-file ./reads a.yml < ../secrets/old"]),
    "if two passwords have the chosen label": Lines(
        differ=[f"AV encrypt {DEV} --vault-id dev@../secrets/old --encrypt-vault-id dev plain.yml"]
    ),
    "the settings `vault_id_match`": Lines(
        [
            f"{LIST} ANSIBLE_VAULT_ENCRYPT_IDENTITY=prod AV encrypt plain.yml",
            f"ANSIBLE_VAULT_ID_MATCH=1 AV view {DEV} a.yml",
        ]
    ),
    "`rekey`: any of several passwords": Lines(
        [f"{LIST} AV rekey {OLD} {NEW} dev.yml", f"{LIST} AV rekey --vault-id x@../secrets/old {NEW} a.yml"],
        [f"{LIST} AV rekey --vault-id x@../secrets/old --vault-id y@../secrets/dev {NEW} a.yml"],
    ),
    "`rekey --encrypt-vault-id`": Lines(
        [f"{LIST} AV rekey --encrypt-vault-id prod dev.yml"],
        [f"{LIST} ANSIBLE_VAULT_ENCRYPT_IDENTITY=prod AV rekey {NEW} dev.yml"],
    ),
    "`rekey` without a new password": Lines(
        [f"{LIST} ANSIBLE_VAULT_ENCRYPT_IDENTITY=prod AV rekey dev.yml"], [f"{SETTING} AV rekey a.yml"]
    ),
    "`rekey` has no `--output`": Lines(differ=[f"AV rekey {OLD} {NEW} --output - a.yml"]),
    "`view`, `edit` and `rekey` do nothing": Lines(differ=[f"AV view {OLD} < a.yml"]),
    "`view` ends a text": Lines(differ=[f"AV view {OLD} no-end.yml"]),
    "`view` replaces bytes": Lines(differ=[f"AV view {OLD} binary.yml"]),
    "a password file that begins with `#!`": Lines(differ=["AV encrypt --vault-password-file no-script plain.yml"]),
    "if FILE has other hard links": Lines(differ=[f"ln a.yml c.yml; AV decrypt {OLD} a.yml"]),
    "`--output` replaces an existing": Lines(
        [f"AV encrypt {OLD} --output a.yml plain.yml"], [f"ln a.yml c.yml; AV encrypt {OLD} --output a.yml plain.yml"]
    ),
    "a link that leads out": Lines(
        [f"ln -s a.yml c.yml; AV encrypt {OLD} --output c.yml plain.yml"],
        [f"git init -q; ln -s ../plain.yml c.yml; AV encrypt {OLD} c.yml"],
    ),
    "a password file that git tracks": Lines(
        [f"{TRACK}; git rm -q --cached pass; AV view --vault-password-file pass a.yml"],
        [f"{TRACK}; AV view --vault-password-file pass a.yml"],
    ),
    "a script in the repository": Lines([f"{CONFIGURE}; AV view a.yml"], [f"git init -q; {CONFIGURE}; AV view a.yml"]),
    "`ANSIBLE_CONFIG=/dev/null`": Lines(differ=[f"ANSIBLE_CONFIG=/dev/null AV view {OLD} a.yml"]),
    "any number of passwords": Lines(differ=[f"AV view {' '.join([OLD] * 17)} a.yml"]),
}
# Rows that take a terminal, another user or another system. `ansibles_guide.py`, `signals.py` and others try some of
# them.
UNTRIED = ["Ctrl-C", "`view` starts a pager", "where every file has mode 0777", "if root runs"]


def list_rows() -> list[str]:
    """Return the first cells of both tables."""
    text = PAGE.read_text()
    tables = [text.split(f"\n## {title}\n")[1].split("\n## ")[0] for title in ("Common differences", "Edge cases")]
    return [row[1] for table in tables for row in ROW.finditer(table) if not row[1].startswith(("With Ansible", "---"))]


def test_rows() -> None:
    """Each row of the page is run, and each of these is on the page."""
    begins = [*LINES, *UNTRIED]
    rows = list_rows()
    assert [row for row in rows if sum(map(row.startswith, begins)) != 1] == [], "rows that nothing runs"
    assert [begin for begin in begins if sum(row.startswith(begin) for row in rows) != 1] == [], "rows that are gone"


def put_files(place: Place) -> None:
    vaults = {"a.yml": ("old", TEXT, ""), "b.yml": ("old", TEXT, ""), "dev.yml": ("dev", TEXT, "dev")}
    vaults |= {"sealed.pass": ("old", PASSWORDS["dev"], ""), "no-end.yml": ("old", b"x", "")}
    vaults["binary.yml"] = ("old", b"\xff\n", "")
    for name, (password, text, label) in vaults.items():
        place.put(name, sealed(password, text, label))
    place.put("plain.yml", TEXT)
    place.put("../plain.yml", TEXT)
    place.put("no-script", b"#!the password old\n")
    scripts = {"script": "cat ../secrets/old", "spaces": "echo ' the password old '", "reads": "cat"}
    for name, command in scripts.items():
        place.put(name, f"#!/bin/sh\n{command}\n".encode(), 0o755)


def outcome(place: Place, tool: str, line: str, looks_at: str, **variables: str) -> object:
    put_files(place)
    editor = place.script('echo more >> "$1"', "editor")
    text = f'av() {{ "{tool}" "$@"; }}\n{line.replace("AV ", "av ")}'
    done = place.run_on(b"", "setsid", "--wait", "bash", "-c", text, EDITOR=editor, **variables)
    files = {name: open_envelopes(data) for name, data in place.files().items()}
    if looks_at:
        return [place.mode(name) for name in files] if looks_at == "modes" else done.stderr
    return done.returncode, open_envelopes(done.stdout), files


def open_envelopes(data: bytes) -> bytes:
    """Return the text with a description of each envelope in its place."""
    return FOUND.sub(lambda found: repr(described(found[0])).encode(), data)


CASES = [(line, row, True) for row in LINES.values() for line in row.same]
CASES += [(line, row, False) for row in LINES.values() for line in row.differ]


@pytest.mark.parametrize("line, row, is_same", CASES, ids=[line for line, _, _ in CASES])
def test_lines(cases: Companions, line: str, row: Lines, is_same: bool) -> None:
    needs("bash")
    ansible = needs_ansible()
    if ansible_release() != (2, 14):
        # The page compares this release.
        return
    ours = outcome(cases.place(), WITH, line, row.looks_at)
    theirs = outcome(cases.place(), ansible, line, row.looks_at, **FOR_ANSIBLE)
    if is_same and "encrypt_string" in line:
        # The newline at the end is a row of its own.
        assert repr(ours).replace("\\n", "") == repr(theirs).replace("\\n", "")
    elif is_same:
        assert ours == theirs
    else:
        assert ours != theirs

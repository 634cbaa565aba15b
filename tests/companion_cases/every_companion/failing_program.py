"""The program ends with status 0, but what it has printed is not whole, or not what it was asked for. A companion says
so, and leaves each file as it was."""

import pytest

from companion_cases import CHANGE, CHECK, CONFLICT, EDIT, MERGE, NOT_DECRYPTED, ROTATE, TEXT, TEXTCONV, WITH
from companion_cases import Place, block, sealed, versions

# Long enough that a part of it cannot be the whole.
LONG = b"x: %s\n" % (b"y" * 60) + TEXT
# What the program prints in place of its answer, of which the file `answer` has the size.
PARTS = {
    "nothing": ":",
    "half": 'head -c $(($size / 2)) "$answer"',
    "all but the last block": 'head -c $(($size - 17)) "$answer"',
}
OF_ENVELOPES = {
    **PARTS,
    "all but the last byte": 'head -c $(($size - 1)) "$answer"',
    "another label": "sed 's/AES256.*/AES256;other/' \"$answer\"",
    "plaintext": "echo secret",
    "another vault": f"printf '{sealed('old').decode()}'",
}
STAND_IN = """
if [ "$1" = {command} ]; then
    answer=../answer$$
    {program} "$@" > "$answer" || exit
    size=$(wc -c < "$answer")
    {part}
    exit 0
fi
"""
NOT_WHOLE = "ansible-vault failed: it ended with status 0, but its output is not whole"
# Command lines, each with the command of the program that fails.
OLD = "--vault-password-file ../secrets/old"
NEW = "--new-vault-password-file ../secrets/new"
LINES = {
    f"{EDIT} {OLD} a.yml": "view",
    f"{EDIT} {OLD} b.yml": "view",
    f"{ROTATE} {OLD} {NEW} a.yml b.yml": "view",
    f"{CHECK} {OLD} a.yml b.yml": "view",
    f"{MERGE} {OLD} ../versions/base-a.yml a.yml ../versions/theirs-a.yml a.yml": "view",
    f"{TEXTCONV} {OLD} a.yml": "view",
    f"{WITH} view {OLD} a.yml c.yml": "view",
    f"{WITH} decrypt {OLD} a.yml": "view",
}
OF_SEALING = {
    f"{EDIT} {OLD} a.yml": "encrypt",
    f"{EDIT} {OLD} b.yml": "encrypt",
    f"{EDIT} {OLD} new.yml": "encrypt",
    f"{ROTATE} {OLD} {NEW} a.yml b.yml": "encrypt",
    f"{MERGE} {OLD} ../versions/base-a.yml a.yml ../versions/theirs-a.yml a.yml": "encrypt",
    f"{WITH} encrypt {OLD} plain.yml": "encrypt",
    f"{WITH} rekey {OLD} {NEW} a.yml": "rekey",
    f"{WITH} encrypt_string {OLD} --name a --output b.yml hunter2 staple": "encrypt_string",
}


def prepare(place: Place, command: str, part: str) -> None:
    text = LONG.replace(b"y", b"z")
    versions(
        place, "a.yml", sealed("old", LONG), sealed("old", LONG + b"ours: 1\n"), sealed("old", b"theirs: 1\n" + LONG)
    )
    place.put("b.yml", block("old", text))
    place.put("c.yml", sealed("old", text))
    place.put("plain.yml", LONG)
    place.environment["EDITOR"] = place.script(f'{CHANGE}; [ -s "$1" ] || echo new: {"z" * 40} > "$1"', "editor")
    place.wrap_tool(STAND_IN.format(command=command, program=place.program, part=part))


def check(place: Place, line: str, command: str, part: str) -> None:
    prepare(place, command, part)
    before = place.files()
    done = place.run(*line.split())
    assert NOT_WHOLE in done.stderr and "Traceback" not in done.stderr, (line, done)
    # git takes the text of a file that cannot be shown.
    assert done.returncode == {TEXTCONV: 0, MERGE: CONFLICT}.get(line.split()[0], 1), (line, done)
    if TEXTCONV in line:
        assert done.stdout.encode() == NOT_DECRYPTED.encode() + place.get("a.yml")
    if MERGE in line:
        assert b"<<<<<<< ours\n" in place.get("a.yml")
    else:
        assert place.files() == before


@pytest.mark.parametrize("part", PARTS)
@pytest.mark.parametrize("line", LINES)
def test_plaintexts(place: Place, git: None, line: str, part: str) -> None:
    check(place, line, LINES[line], PARTS[part])


@pytest.mark.parametrize("part", OF_ENVELOPES)
@pytest.mark.parametrize("line", OF_SEALING)
def test_envelopes(place: Place, git: None, line: str, part: str) -> None:
    check(place, line, OF_SEALING[line], OF_ENVELOPES[part])


# What a companion is run for, and the status that its page gives to a failure.
STATUSES = {
    f"{EDIT} {OLD} a.yml": 1,
    f"{EDIT} {OLD} b.yml": 1,
    f"{EDIT} {OLD} --value db_password c.yml": 1,
    f"{TEXTCONV} {OLD} a.yml b.yml": 0,
    f"{TEXTCONV} {OLD} --value secret b.yml": 1,
    f"{CHECK} {OLD} a.yml b.yml": 1,
    f"{ROTATE} {OLD} {NEW} a.yml b.yml": 1,
    f"{MERGE} {OLD} ../versions/base-a.yml a.yml ../versions/theirs-a.yml a.yml": CONFLICT,
}


@pytest.mark.parametrize("status", [2, 127])
@pytest.mark.parametrize("line", STATUSES)
def test_statuses(place: Place, git: None, line: str, status: int) -> None:
    """Whatever the status of the program, that of a companion is one that its page names."""
    prepare(place, "view", ":")
    place.put("c.yml", block("old", name="db_password"))
    place.wrap_tool(f'[ "$1" = --version ] || exit {status}')
    done = place.run(*line.split())
    assert done.returncode == STATUSES[line], done
    assert f"ansible-vault ended with status {status}" in done.stderr, "the reason"


# Messages of the program, and what companions pass on of each.
MESSAGES = {
    "ERROR! gr\\366\\337e\\n": "gr\ufffd\ufffde",
    "\\033[2J\\n": "\\x1b[2J",
    "ERROR! one\\ntwo\\n": "one\ntwo",
    "": "ansible-vault ended with status 4",
}
FAILING = [f"{CHECK} {OLD} a.yml", f"{ROTATE} {OLD} {NEW} a.yml", f"{WITH} view {OLD} a.yml a.yml"]


@pytest.mark.parametrize("message", MESSAGES)
@pytest.mark.parametrize("line", FAILING)
def test_messages(place: Place, line: str, message: str) -> None:
    """Whatever the program says is passed on in printable form, and the alias ends with its status."""
    place.put("a.yml", sealed("old"))
    place.wrap_tool(f"[ $1 != view ] || {{ printf '{message}' >&2; exit 4; }}")
    done = place.run(*line.split())
    assert f"{line.split()[0]}: a.yml: " in done.stderr and MESSAGES[message] in done.stderr, done
    assert done.returncode == (4 if WITH in line else 1), done

"""Questions without a terminal: lines of standard input answer, as with Ansible's own tool, unless that is data."""

import os
import re
import subprocess
import termios

import pytest

from companion_cases import CHECK, EDIT, PASSWORDS, TEXT, TEXTCONV, WITH, Companions, Place, block, sealed
from companion_cases.alias.ansibles_guide import opened
from companion_cases.terminal import FOR_ANSIBLE, shown_until, type_for_ansible
from lib.needs import needs_ansible
from lib.processes import SECONDS

# Command lines, the passwords and other lines that are piped to them, and the password of `a.yml`, if it is a vault.
PIPED = {
    "view --ask-vault-pass a.yml": ("old", "old"),
    "view a.yml": ("old", "old"),
    "view --vault-id dev@prompt a.yml": ("old", "old"),
    "view --vault-id a@prompt --vault-id b@prompt a.yml": ("new old", "old"),
    "decrypt --ask-vault-pass a.yml b.yml": ("old", "old"),
    "encrypt --ask-vault-pass a.yml": ("old old", ""),
    "rekey --ask-vault-pass a.yml": ("old new new", "old"),
    "rekey --vault-id old@prompt --new-vault-id new@prompt a.yml": ("old new new", "old"),
    "create --ask-vault-pass new.yml": ("old old", "old"),
    "edit --ask-vault-pass a.yml b.yml": ("old", "old"),
    "encrypt_string --ask-vault-pass word --name q": ("old old", ""),
    "encrypt_string --ask-vault-pass --prompt word": ("old old name typed", ""),
    "encrypt_string --ask-vault-pass --prompt --show-input word": ("old old name typed", ""),
}
# Questions that Ansible's tool prints on standard output, where its values follow.
SHOWN = re.compile(rb"Variable name \(enter for no name\): |String to encrypt:")


def outcome(place: Place, line: str, *words: str, **variables: str) -> tuple[bool, bytes, dict[str, bytes]]:
    """Return whether the run succeeded, what it printed, and each file. There is no terminal."""
    lines, password = PIPED[line]
    typed = line if WITH in words else type_for_ansible(line)
    for name in ("a.yml", "b.yml"):
        place.put(name, sealed(password) if password else TEXT)
    data = b"".join(PASSWORDS.get(word, word.encode()) + b"\n" for word in lines.split())
    editor = place.script('echo more >> "$1"', "editor")
    done = place.run_on(data, "setsid", "--wait", *words, *typed.split(), EDITOR=editor, **variables)
    files = {name: opened(content) for name, content in place.files().items()}
    return done.returncode == 0, opened(SHOWN.sub(b"", done.stdout)), files


@pytest.mark.parametrize("line", PIPED)
def test_lines(cases: Companions, line: str) -> None:
    ours = outcome(cases.place(), line, WITH)
    assert ours[0] is True
    assert ours == outcome(cases.place(), line, needs_ansible(), **FOR_ANSIBLE), "as Ansible's tool"


def run(place: Place, data: bytes | None, line: str) -> subprocess.CompletedProcess[bytes]:
    place.put("a.yml", sealed("old"))
    place.put("plain.yml", TEXT)
    place.put("values.yml", block("old", name="a"))
    return place.run_on(data or b"", "setsid", "--wait", "sh", "-c", line)


NO_PASSWORD = "there is no terminal on which to ask for the password"
FOR_DATA = f"{NO_PASSWORD}, and standard input is for data; name a password file\n"
NO_STRING = "there is no terminal on which to ask for the string"
NO_LINE = ", and standard input has no line for `{}`; name a password file\n"
# Command lines that have another use for standard input.
DATA = {
    f"{WITH} encrypt -J": FOR_DATA,
    f"{WITH} encrypt -J -": FOR_DATA,
    f"{WITH} view --vault-id dev@prompt /dev/stdin": FOR_DATA,
    f"{WITH} decrypt -J --output=- /dev/fd/0": FOR_DATA,
    f"{WITH} rekey -J": FOR_DATA,
    f"{WITH} view -J a.yml /dev/stdin": FOR_DATA,
    f"{WITH} decrypt -J plain.yml /dev/fd/0 a.yml": FOR_DATA,
    f"{WITH} encrypt_string -J": FOR_DATA,
    f"{WITH} encrypt_string -J --stdin-name q word": FOR_DATA,
    f"{WITH} encrypt_string --vault-id ../secrets/old -p -": f"{NO_STRING}, and standard input is for data; give it as",
    f"{WITH} encrypt": "no password is given: name one with --vault-id",
    f"{EDIT} -J --value=a values.yml": FOR_DATA,
    # git runs some companions, and its standard input may be a list of files.
    f"{TEXTCONV} -J a.yml": f"{FOR_DATA[:-1]}; it is ignored\n",
    f"{CHECK} -J a.yml": FOR_DATA,
}


@pytest.mark.parametrize("line", DATA)
def test_data(place: Place, line: str) -> None:
    """Standard input that is data is not read for an answer."""
    text = b"the password old\nthe password old\n" + TEXT
    done = run(place, text, f"{{ {line}; status=$?; cat > ../rest; exit $status; }}")
    assert DATA[line] in done.stderr.decode(), done
    assert done.returncode == (0 if TEXTCONV in line else 1)
    assert (place.path / "rest").read_bytes() == text, "nothing is read"


# Standard inputs that do not answer, and a command line.
NOTHING = [
    (
        f"{WITH} view -J a.yml < /dev/null",
        f"{WITH}: --ask-vault-password: {NO_PASSWORD}{NO_LINE.format('Vault password')}",
    ),
    (f"{WITH} view -J a.yml <&-", f"{WITH}: --ask-vault-password: {NO_PASSWORD}{NO_LINE.format('Vault password')}"),
    (f"{WITH} view a.yml <&-", f"{WITH}: no password is given: name one with"),
    (f"echo | {WITH} view -J a.yml", "you typed an empty password"),
    (f"printf 'x\\ny\\n' | {WITH} encrypt -J plain.yml", "the two passwords differ"),
    (f"printf 'x\\n' | {WITH} encrypt -J plain.yml", NO_LINE.format("Confirm New Vault password")),
    (f"printf '\\377\\n' | {WITH} view -J a.yml", "not valid UTF-8"),
    (
        f"{WITH} encrypt_string --vault-id ../secrets/old -p < /dev/null",
        f"{WITH}: {NO_STRING}, and standard input has no line for ",
    ),
]


@pytest.mark.parametrize("line, why", NOTHING)
def test_no_answers(place: Place, line: str, why: str) -> None:
    done = run(place, None, line)
    assert (done.returncode, done.stdout, why in done.stderr.decode()) == (1, b"", True), done
    assert place.get("plain.yml") == TEXT


def test_new_values(place: Place) -> None:
    """A password that only encrypts is asked for again, whoever answers."""
    place.put("values.yml", b"word: !vault TEXT\n")
    editor = place.script("true", "editor")
    for lines, status in ((2 * (PASSWORDS["old"] + b"\n"), 0), (PASSWORDS["old"] + b"\nmistyped\n", 1)):
        place.put("values.yml", b"word: !vault TEXT\n")
        done = place.run_on(lines, "setsid", "--wait", EDIT, "-J", "values.yml", EDITOR=editor)
        assert done.returncode == status, done
        assert (b"!vault |" in place.get("values.yml")) == (status == 0)


def test_a_terminal_at_standard_input(place: Place) -> None:
    """It is asked like the terminal of the process, without an echo, if the process has none."""
    place.put("a.yml", sealed("old"))
    controller, terminal = os.openpty()
    words = ["setsid", "--wait", WITH, "view", "-J", "a.yml"]
    with subprocess.Popen(
        words, cwd=place.tree, env=place.environment, stdin=terminal, stdout=subprocess.PIPE
    ) as program:
        os.close(terminal)
        assert shown_until(controller, b"Vault password: ") == b"Vault password: "
        assert termios.tcgetattr(controller)[3] & termios.ECHO == 0
        os.write(controller, PASSWORDS["old"] + b"\n")
        output, _ = program.communicate(timeout=SECONDS)
    os.close(controller)
    assert program.returncode == 0, "the vault is decrypted"
    assert output == TEXT, "its text is printed"

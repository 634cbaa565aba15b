"""Passwords typed at a terminal, compared with Ansible's own tool."""
from typing import NamedTuple

import pytest

from companion_cases import CHECK, EDIT, FOUND, PASSWORDS, ROTATE, TEXT, WITH, Place, block, decrypted, described
from companion_cases import Done, sealed, texts
from companion_cases.terminal import FOR_ANSIBLE, READING, READY, SHELL, Session, ask
from lib.needs import needs_ansible

ASKED, AGAIN = "Vault password: ", "Confirm New Vault password: "
OF_DEV = "Vault password (dev): "
NEW_OF_DEV, AGAIN_OF_DEV = "New vault password (dev): ", "Confirm new vault password (dev): "


def typed(password: str, *questions: str) -> list[tuple[str, bytes]]:
    """Return an answer to each question. White space around a password does not count."""
    return [(question, b" %s \n" % PASSWORDS[password]) for question in questions]


def check_asked(session: Session, *questions: str) -> None:
    """Check that these questions were asked, and no answer was shown."""
    assert session.shown == "".join(f"{question}\n" for question in questions), "what is shown"
    assert session.echoes, "the terminal echoes again"


def test_settings(place: Place) -> None:
    """Settings lead to the same questions as with Ansible's tool. `ansibles_guide.py` has the options."""
    place.put("ansible.cfg", b"[defaults]\nvault_identity_list = dev@prompt\nask_vault_pass = yes\n")
    place.put("a.yml", sealed("new"))
    words, answers = ["view", "a.yml"], [*typed("dev", OF_DEV), *typed("new", ASKED)]
    session = ask(place, WITH, *words, answers=answers)
    check_asked(session, OF_DEV, ASKED)
    assert session[:3] == (0, TEXT.decode(), "")
    check_asked(ask(place, needs_ansible(), *words, answers=answers, **FOR_ANSIBLE), OF_DEV, ASKED)


def test_how_often(place: Place) -> None:
    """A companion asks once to decrypt, even if it encrypts something with the same password, and twice to encrypt."""
    editor = place.script('echo more >> "$1"', "editor")
    place.put("a.yml", sealed("dev", label="dev"))
    once, twice = typed("dev", OF_DEV), typed("dev", NEW_OF_DEV, AGAIN_OF_DEV)
    new = [*once, *typed("dev2", NEW_OF_DEV, AGAIN_OF_DEV)]
    runs = {f"{EDIT} a.yml": once, f"{EDIT} a.yml new.yml": twice, f"{ROTATE} --new-vault-id dev@prompt .": new}
    for line, answers in runs.items():
        words = [*line.split(), "--vault-id", "dev@prompt"]
        check_asked(ask(place, *words, answers=answers, EDITOR=editor), *(question for question, _ in answers))
    found = [decrypted("dev2", place.get(name)) for name in ("a.yml", "new.yml")]
    assert found == [TEXT + b"more\nmore\n", b"more\n"]


def test_order(place: Place) -> None:
    """Passwords are tried in this order: those of both options, the one of -J, wherever that is among them, and those
    of the settings' list and file."""
    place.put("a.yml", sealed("dev2"))
    settings = {"ANSIBLE_VAULT_IDENTITY_LIST": f"{place.secret('dev')}, {place.secret('prod')}"}
    settings["ANSIBLE_VAULT_PASSWORD_FILE"] = place.secret("prod2")
    words = [CHECK, "-J", *place.by_file("old"), *place.by_id("default", "new"), "a.yml"]
    session = ask(place, *words, answers=typed("old", ASKED), **settings)
    tried = [f"default@{place.secret('new')}", place.secret("old"), "--ask-vault-password"]
    tried += [place.secret("dev"), place.secret("prod"), place.secret("prod2")]
    assert f"; tried {', '.join(tried)})" in session.stderr, session


def test_settings_beside_options(place: Place) -> None:
    """A prompt that the settings name counts beside options."""
    place.put("a.yml", sealed("dev", label="dev"))
    for words in ([CHECK], [WITH, "view"]):
        answers, variables = typed("dev", OF_DEV), {"ANSIBLE_VAULT_IDENTITY_LIST": "dev@prompt"}
        session = ask(place, *words, *place.by_file("old"), "a.yml", answers=answers, **variables)
        check_asked(session, OF_DEV)
        assert session.returncode == 0, session


# What is typed in place of a password, and what is said of it.
NO_PASSWORDS = {
    "no UTF-8": (b"gr\xf6\xdfe\n", "what you typed is not valid UTF-8; set the terminal to UTF-8"),
    "an empty line": (b"\n", "you typed an empty password; try again"),
    "blanks": (b" \t \n", "you typed an empty password; try again"),
    "the end of the input": (b"\x04", "you typed nothing; try again"),
}
NAME, STRING = "Variable name (enter for no name): ", "String to encrypt (hidden): "


@pytest.mark.parametrize("answer, why", NO_PASSWORDS.values(), ids=NO_PASSWORDS)
def test_no_passwords(place: Place, answer: bytes, why: str) -> None:
    place.put("a.yml", sealed("dev"))
    for words in ([WITH, "view"], [CHECK]):
        session = ask(place, *words, "-J", "a.yml", answers=[(ASKED, answer)])
        assert (session.returncode, session.stdout) == (1, ""), session
        assert why in session.stderr and session.echoes, session


@pytest.mark.parametrize("what", NO_PASSWORDS)
def test_no_strings(place: Place, what: str) -> None:
    """A string that is typed is no answer for the same reasons, but blanks are one."""
    answer, why = NO_PASSWORDS[what]
    words = [WITH, "encrypt_string", *place.by_file("dev"), "--prompt"]
    session = ask(place, *words, answers=[(NAME, b"\n"), (STRING, answer)])
    if what == "blanks":
        assert texts(session.stdout.encode(), "dev") == [b" \t "], session
    else:
        assert (session.returncode, session.stdout) == (1, ""), session
        assert why.replace("password", "string") in session.stderr and session.echoes, session


def test_end_of_input(place: Place) -> None:
    """Ctrl-D ends a password, too: once for what is in the line, and once more."""
    place.put("a.yml", sealed("dev"))
    session = ask(place, WITH, "view", "-J", "a.yml", answers=[(ASKED, PASSWORDS["dev"] + b"\x04\x04")])
    assert (session.returncode, session.stdout, session.stderr) == (0, TEXT.decode(), ""), session


@pytest.mark.parametrize("words", (["-J"], []))
def test_only_password(place: Place, words: list[str]) -> None:
    """A single password that is typed re-encrypts a vault of any label, even if nothing asks for it."""
    place.put("a.yml", sealed("dev", label="prod"))
    new = "--new-vault-password-file=../secrets/new"
    session = ask(place, WITH, "rekey", *words, new, "a.yml", answers=typed("dev", ASKED))
    assert (session.returncode, decrypted("new", place.get("a.yml"))) == (0, TEXT), session


@pytest.mark.parametrize("line", ("encrypt plain.yml", "create new.yml", "edit values.yml"))
@pytest.mark.parametrize("label", (b"default", b"prod"))
def test_label_of_the_settings(place: Place, line: str, label: bytes) -> None:
    """The password that is typed has the label `default`, and encrypts, whatever label the settings choose."""
    place.put("ansible.cfg", b"[defaults]\nvault_encrypt_identity = %s\n" % label)
    place.put("plain.yml", TEXT)
    place.put("values.yml", NEW_VALUE)
    editor = place.script('test -s "$1" || echo text > "$1"', "editor")
    answers = typed("dev", ASKED if "edit" in line else "New Vault password: ", AGAIN)
    session = ask(place, WITH, *line.split(), answers=answers, EDITOR=editor)
    header, found = described(place.get(line.split()[1]))
    assert (session.returncode, header, found and found[0]) == (0, b"$ANSIBLE_VAULT;1.1;AES256", "dev"), session


NEW_VALUE = b"word: !vault TEXT\n"
OF_PROD = typed("prod", "Vault password (prod): ", "Confirm new vault password (prod): ")
BY_LABEL = "--vault-id prod@prompt --encrypt-vault-id prod"
BOTH = "--vault-id dev@../secrets/dev --vault-id prod@prompt"
OF_ANOTHER = block("dev", b"one", "dev", "a")
# Values with two labels, of which one stays encrypted.
OF_TWO = OF_ANOTHER + block("new", b"two", "other", "b")
# Questions for the label of a new value.
WHICH = [("Label to encrypt word with (dev, prod): ", label) for label in (b"stage\n", b" prod \n")]


class Encryption(NamedTuple):
    """A command line for a password that was not typed for encryption, the file, and what is typed at each question."""

    line: str
    before: bytes
    answers: list[tuple[str, bytes]]


ONLY_ENCRYPTING = {
    "a new value": Encryption(line=f"{EDIT} -J a.yml", before=NEW_VALUE, answers=typed("prod", ASKED, AGAIN)),
    "a label that is typed": Encryption(
        line=f"{EDIT} {BOTH} a.yml < /dev/tty",
        before=OF_TWO + NEW_VALUE,
        answers=[OF_PROD[0], *WHICH, OF_PROD[1]],
    ),
    "one that is set": Encryption(
        line=f"printf new | {EDIT} {BY_LABEL} --value=word a.yml", before=NEW_VALUE, answers=OF_PROD
    ),
    "rekey": Encryption(line=f"{WITH} rekey --encrypt-vault-id=prod a.yml", before=sealed("old"), answers=OF_PROD),
}


@pytest.mark.parametrize("what", ONLY_ENCRYPTING)
@pytest.mark.parametrize("is_mistyped", [False, True])
def test_what_only_encrypts(place: Place, what: str, is_mistyped: bool) -> None:
    """A password that has decrypted nothing is asked for twice before it encrypts. The two answers must agree."""
    line, before, answers = ONLY_ENCRYPTING[what]
    place.put("a.yml", before)
    if what == "rekey":
        place.environment["ANSIBLE_VAULT_IDENTITY_LIST"] = "../secrets/old, prod@prompt"
    if is_mistyped:
        *others, (question, _) = answers
        end = [("Open the editor again? (yes, no): ", b"no\n")] if "/dev/tty" in line else []
        answers = [*others, (question, b"mistyped\n"), *end]
    session = ask(place, "sh", "-c", line, answers=answers, EDITOR="true")
    header, found = described((FOUND.findall(place.get("a.yml")) or [b""])[-1])
    wanted = b"$ANSIBLE_VAULT;1.1;AES256" if "-J" in line else b"$ANSIBLE_VAULT;1.2;AES256;prod"
    if is_mistyped:
        assert session.returncode == 1 and "the two passwords differ; try again" in session.stderr, session
        assert place.get("a.yml") == before, "nothing is changed"
    else:
        assert (session.returncode, header, found and found[0]) == (0, wanted, "prod"), session


class NewValue(NamedTuple):
    """A file, more options, what is said before the editor opens, and the label of the new value."""

    before: bytes
    words: list[str]
    said: str
    label: str


GETS = "new values get the label {}; --encrypt-vault-id chooses another"
NEW_VALUES = {
    "the label of all values": NewValue(OF_ANOTHER, [], GETS.format("dev"), "dev"),
    "a chosen label": NewValue(OF_ANOTHER, ["--encrypt-vault-id=prod"], GETS.format("prod"), "prod"),
    "one label of several": NewValue(OF_TWO, ["--encrypt-vault-id=prod"], GETS.format("prod"), "prod"),
}


@pytest.mark.parametrize("has_terminal", (True, False))
@pytest.mark.parametrize("row", NEW_VALUES.values(), ids=NEW_VALUES)
def test_label_of_new_values(place: Place, row: NewValue, has_terminal: bool) -> None:
    """It is known before the editor opens, said at a terminal, and no question follows."""
    place.put("a.yml", row.before)
    words = [EDIT, *place.by_id("dev", "dev"), *place.by_id("prod", "prod"), *row.words, "a.yml"]
    editor = place.script("echo 'word: !vault new' >> \"$1\"", "editor")
    done: Session | Done = place.run(*words, EDITOR=editor)
    if has_terminal:
        place.put("a.yml", row.before)
        done = ask(place, *READING, *words, answers=[], EDITOR=editor)
    lines = [
        line.removeprefix(f"{EDIT}: a.yml: ") for line in done.stderr.splitlines() if "stays encrypted" not in line
    ]
    said = [row.said] if has_terminal else []
    assert (done.returncode, lines) == (0, [*said, f"encrypted word (label {row.label})"]), done
    assert texts(place.get("a.yml"), row.label)[-1] == b"new", "it gets the password of its label"


def test_no_label_of_new_values(place: Place) -> None:
    """If the values have several labels and none is chosen, a new value is refused without a terminal, and no password
    may read a copy."""
    place.put("a.yml", OF_TWO)
    words = [EDIT, *place.by_id("dev", "dev"), *place.by_id("prod", "prod"), "a.yml"]
    done = place.run(*words, EDITOR=place.script("echo 'word: !vault new' >> \"$1\"", "editor"))
    assert done.returncode == 1 and "word is new; of the labels " in done.stderr, done
    assert "what you saved is left in plaintext in " in done.stderr and place.copies() == [], done
    assert place.get("a.yml") == OF_TWO, "the file stays"
    done = place.run(*words, EDITOR=place.script('sed -i s/one/One/ "$1"', "editor"))
    assert done.returncode == 0 and "encrypted a (label dev)\n" in done.stderr, "a value that is there may change"


def test_label_of_a_new_vault(place: Place) -> None:
    """It is asked for once, as for a new value. Of two passwords with one label, a label chooses none."""
    editor = place.script('echo new > "$1"', "editor")
    words = [*READING, EDIT, *place.by_id("dev", "dev"), *place.by_id("prod", "prod"), "new.yml"]
    answers = [("Label to encrypt the new vault with (dev, prod): ", b"prod\n")]
    session = ask(place, *words, answers=answers, EDITOR=editor)
    assert session.returncode == 0, session
    assert described(place.get("new.yml")) == (b"$ANSIBLE_VAULT;1.2;AES256;prod", ("prod", b"new\n")), "the new vault"
    words = [*READING, EDIT, *place.by_id("prod", "dev"), *place.by_id("prod", "prod"), "other.yml"]
    session = ask(place, *words, answers=[("", b"\x04")], EDITOR="touch started")
    assert session.returncode == 1, session
    why = "the vault is new; of the labels prod, prod, choose one with --encrypt-vault-id"
    assert session.stderr == f"{EDIT}: other.yml: {why}\n"
    assert place.names() == ["new.yml"], "no editor is started, and no other vault is made"


@pytest.mark.parametrize("words, key, status", (([EDIT], b"\x03", 130), ([WITH, "view"], b"\x1c", 131)))
def test_keys(place: Place, words: list[str], key: bytes, status: int) -> None:
    """The keys for an interrupt and for quitting end the question, and the terminal is as it was."""
    place.put("a.yml", sealed("dev"))
    session = ask(place, *words, "-J", "a.yml", answers=[(ASKED, key)])
    assert session.returncode == status, "the key ends it"
    assert session.stdout == "", "nothing is decrypted"
    assert session.echoes, "the terminal shows again what is typed"


def test_suspended(place: Place) -> None:
    """Ctrl-Z has no effect on a question for a password: after `fg`, a shell would let the terminal show it."""
    place.put("a.yml", sealed("dev"))
    line, key = f"{WITH} view -J a.yml > ../shown\n".encode(), b"\x1a"
    answers = [(READY, line), (ASKED, key + PASSWORDS["dev"] + b"\n"), (READY, b"exit\n")]
    session = ask(place, *SHELL, answers=answers)
    assert (place.path / "shown").read_bytes() == TEXT, session.shown
    assert "Stopped" not in session.shown and PASSWORDS["dev"].decode() not in session.shown, session.shown

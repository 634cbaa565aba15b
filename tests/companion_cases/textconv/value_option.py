"""One value of YAML for scripts: `ansible-vault-textconv --value` writes it, `ansible-vault-edit --value` sets it."""

import os
import subprocess
from pathlib import Path
from typing import NamedTuple

import pytest

from companion_cases import EDIT, TEXTCONV, Done, Place, block, described, sealed, silent, texts, wait_until
from companion_cases.terminal import ask
from lib.needs import needs_pyyaml
from lib.processes import SECONDS, started

ANY_BYTES = b"\x00\xff\r\n two \n\n"
FILE = (
    b"# first\nport: 1\n"
    + block("dev", b"correct horse", "dev", "db_password")
    + b"app:\n  users:\n  - name: a\n    "
    + block("prod", ANY_BYTES, "prod", "pw").replace(b"\n ", b"\n     ")
    + b"  plain: text # why\n  nothing:\n'a.b \"c\\d\"':\n- "
    + block("dev", b"", "dev", "x").replace(b"\n ", b"\n   ")
)
# The path as it is typed, and the value.
VALUES = {"db_password": b"correct horse", "app.users[0].pw": ANY_BYTES, '"a.b \\"c\\\\d\\""[0].x': b""}
SENTENCE = b"$ANSIBLE_VAULT;1.1;AES256 begins a vault"
VAULT_TEXT = b"db:\n  password: 'it''s'\n  list: [1]\nabout: " + SENTENCE + b"\n" + block("prod", b"inner", "prod", "x")
VAULT = sealed("dev", VAULT_TEXT, "dev")


class NotShown(NamedTuple):
    """The content of a file, a path that leads to no single value, and why."""

    content: bytes
    path: str
    why: str


NOT_SHOWN = [
    NotShown(
        content=FILE,
        path="pw",
        why='no value pw; encrypted here: db_password, app.users[0].pw, "a.b \\"c\\\\d\\""[0].x',
    ),
    # As if a variable of the shell were empty.
    NotShown(content=FILE, path="", why="there is no value ; encrypted here: db_password, "),
    # The names in a plaintext are as secret as the rest of it.
    NotShown(content=VAULT, path="", why="there is no value \n"),
    NotShown(content=FILE, path="app.plain", why="app.plain is not encrypted"),
    NotShown(
        content=block("dev", b"one", "dev", "a") * 2,
        path="a",
        why="2 values are at a; number the items of lists, as in ",
    ),
    NotShown(
        content=b"users:\n" + (b"- " + block("dev", b"one", "dev", "a")) * 2,
        path="users[].a",
        why="2 values are at users[].a; number the items of lists, as in ",
    ),
    NotShown(content=VAULT, path="db", why="db is a list, a mapping or an alias"),
    NotShown(
        content=block("dev") + b"b: 'x\n",
        path="secret",
        why="it cannot be read as YAML: found unexpected end of stream",
    ),
    NotShown(
        content=block("old"), path="secret", why="vars.yml: no secret decrypts this vault (label default; tried dev@"
    ),
]


# What is at a key and is no text of its own.
NO_TEXTS = b"text: &t one\nlist: &l [1]\nmapping: &m {a: 1}\nempty: &e {}\n"
NO_TEXTS += b"at: *t\nal: *l\nam: *m\nae: *e\nitems: [*t, [], {}]\n"
PATHS = ["list", "mapping", "empty", "at", "al", "am", "ae", "items", "items[0]", "items[1]", "items[2]"]


@pytest.fixture
def both(place: Place) -> list[str]:
    """Write a file with values of two secrets, whose labels stay whatever the settings say; return both options."""
    needs_pyyaml()
    place.environment["ANSIBLE_VAULT_ENCRYPT_IDENTITY"] = "prod"
    place.put("vars.yml", FILE, 0o640)
    return [*place.by_id("dev", "dev"), *place.by_id("prod", "prod")]


def set_to(place: Place, text: bytes, *words: str) -> Done:
    place.put("../given", text)
    return place.run("sh", "-c", '"$@" < ../given', "sh", EDIT, *words)


def check_values(place: Place, secrets: list[str], wanted: dict[str, bytes]) -> None:
    for path, text in wanted.items():
        done = place.run_on(b"", TEXTCONV, *secrets, "--value", path, "vars.yml")
        assert (done.returncode, done.stdout, done.stderr) == (0, text, b""), path


@pytest.mark.parametrize("content, path, why", NOT_SHOWN, ids=[why for _, _, why in NOT_SHOWN])
def test_not_shown(place: Place, both: list[str], content: bytes, path: str, why: str) -> None:
    place.put("vars.yml", content)
    done = place.run(TEXTCONV, *both, "--value", path, "vars.yml")
    assert (done.returncode, done.stdout, why in done.stderr) == (1, "", True), done.stderr


@pytest.mark.parametrize("path", PATHS)
def test_no_text(place: Place, both: list[str], path: str) -> None:
    """A list, a mapping or an alias is no value, neither to show nor to set: an alias has its text elsewhere."""
    why = f"{path} is a list, a mapping or an alias; name a value in it\n"
    place.put("vars.yml", sealed("dev", NO_TEXTS, "dev"))
    done = place.run(TEXTCONV, *both, "--value", path, "vars.yml")
    assert (done.returncode, done.stdout) == (1, ""), "what is shown"
    assert done.stderr.endswith(why), "why it is not shown"
    place.put("vars.yml", NO_TEXTS)
    done = set_to(place, b"x", *both, "--encrypt-vault-id", "dev", "--value", path, "vars.yml")
    assert (done.returncode, place.get("vars.yml")) == (1, NO_TEXTS), "what is set"
    assert done.stderr.endswith(why), "why it is not set"


def test_shown(place: Place, both: list[str]) -> None:
    """Other values need not be decrypted, but a vault around it has to be. In git's commit message, it would stay."""
    check_values(place, both[2:], {"app.users[].pw": ANY_BYTES})
    done = place.shell(f"{TEXTCONV} {' '.join(both)} --value db_password vars.yml 7>> COMMIT_EDITMSG")
    assert done.returncode == 1 and done.stdout == "", "the commit message shows nothing"
    silent("the same text", set_to(place, b"correct horse", *both, "--value", "db_password", "vars.yml"))
    assert place.get("vars.yml") == FILE, "it keeps its envelope"
    place.put("vars.yml", VAULT)
    check_values(place, both, {"db.password": b"it's", "db.list[0]": b"1", "about": SENTENCE, "x": b"inner"})


@pytest.mark.parametrize("path", VALUES)
def test_set(place: Place, both: list[str], path: str) -> None:
    """The value keeps its label and secret, and everything else keeps every byte."""
    text = b"\xff\r\nnew\n\n"
    silent("it is set", set_to(place, text, *both, "--value", path, "vars.yml"))
    check_values(place, both, VALUES | {path: text})
    files = [each.splitlines() for each in (FILE, place.get("vars.yml"))]
    before, after = ([line for line in lines if not line.strip().isalnum()] for lines in files)
    assert (after, place.mode("vars.yml")) == (before, "0o640"), "the labels, the layout and the mode stay"


TO_PROD = b": !vault |\n          $ANSIBLE_VAULT;1.2;AES256;prod\n"


class NewLabel(NamedTuple):
    """A file, if there is one, the path of a value that is new or moves to another label, and what is written there."""

    content: bytes | None
    path: str
    written: bytes


NEW = [
    NewLabel(
        content=FILE,
        path="app.plain",
        written=b"\n  plain: !vault | # why\n            $ANSIBLE_VAULT;1.2;AES256;prod\n",
    ),
    NewLabel(
        content=FILE, path="app.nothing", written=b"\n  nothing: !vault |\n            $ANSIBLE_VAULT;1.2;AES256;prod\n"
    ),
    NewLabel(content=FILE, path="db_password", written=b"\ndb_password" + TO_PROD),
    NewLabel(content=FILE, path='"n.w: x"', written=b'\n"n.w: x"' + TO_PROD),
    NewLabel(content=b"# a\n---  # b", path="new", written=b"# a\n---  # b\nnew" + TO_PROD),
    NewLabel(content=None, path="db pw", written=b'"db pw"' + TO_PROD),
    NewLabel(content=None, path="No", written=b'"No"' + TO_PROD),
    NewLabel(content=None, path='"pw"', written=b"pw" + TO_PROD),
]


@pytest.mark.parametrize("content, path, written", NEW)
@pytest.mark.parametrize("text", (b"new", b"correct horse"))
def test_chosen_label(
    place: Place, both: list[str], content: bytes | None, path: str, written: bytes, text: bytes
) -> None:
    """--encrypt-vault-id moves a value to another label, even if its text stays or no secret decrypts it."""
    (place.tree / "vars.yml").unlink()
    if content is not None:
        place.put("vars.yml", content)
    words = [*both[2:], "--encrypt-vault-id", "prod", "--value", path, "vars.yml"]
    silent("it", set_to(place, text, *words))
    assert written in place.get("vars.yml"), "its line"
    check_values(place, both, (VALUES if content == FILE else {}) | {path: text})
    assert place.mode("vars.yml") == ("0o600" if content is None else "0o644")


# What a file has, if there is one, before a new key is added.
WITHOUT_KEY = [None, b"", b"\n", b"# a", b"# a\n", b"a: 1", b"a: 1\n\n", b"a:\n- 1\n", b"a: |\n  b\n\n"]
WITHOUT_KEY += [content.replace(b"\n", b"\r\n") for content in WITHOUT_KEY if content and b"\n" in content]


@pytest.mark.parametrize("content", WITHOUT_KEY, ids=repr)
def test_new_key(place: Place, both: list[str], content: bytes | None) -> None:
    """It is added at the end of the file, which may be empty, with the line ends of the file."""
    (place.tree / "vars.yml").unlink()
    if content is not None:
        place.put("vars.yml", content)
    words = [*both, "--encrypt-vault-id", "prod", "--value", "new", "vars.yml"]
    silent("it is set", set_to(place, b"text", *words))
    before, end = content or b"", b"\r\n" if b"\r\n" in (content or b"") else b"\n"
    if before and not before.endswith(b"\n"):
        before += end
    after = place.get("vars.yml")
    assert after.startswith(before + b"new: !vault |" + end), "all else stays, and the key is below it"
    assert texts(after.removeprefix(before), "prod") == [b"text"], "the value is encrypted"
    assert after.endswith(end) and after.count(b"\n") == after.count(end), "the line ends"


def test_only_value(place: Place, both: list[str]) -> None:
    """Of several nodes at a path, the only encrypted one is meant."""
    place.put("vars.yml", b"users:\n- pw: plain\n- " + block("prod", b"one", "prod", "pw") + b"- pw: [1]\n")
    check_values(place, both, {"users[].pw": b"one"})
    silent("it is set", set_to(place, b"two", *both, "--value", "users[].pw", "vars.yml"))
    check_values(place, both, {"users[1].pw": b"two"})


def test_any_label(place: Place, both: list[str]) -> None:
    """With --any-label, a value keeps its label and the password that opens it, whatever label that has."""
    place.put("vars.yml", block("dev", b"one", "prod", "a"))
    silent("it is set", set_to(place, b"two", *both, "--any-label", "--value", "a", "vars.yml"))
    assert described(place.get("vars.yml")) == (b"$ANSIBLE_VAULT;1.2;AES256;prod", ("dev", b"two")), "the value"


def test_path_without_utf8(place: Place, both: list[str]) -> None:
    """A path that is no UTF-8 leads nowhere, and adds no key."""
    for words in ([TEXTCONV, *both], [EDIT, *both], [EDIT, *both, "--encrypt-vault-id", "prod"]):
        done = place.run(*words, "--value", "\udcff", "vars.yml")
        assert (done.returncode, done.stdout) == (1, ""), "it is refused"
        assert (
            done.stderr.startswith(f"{words[0]}: vars.yml: there is no ") and "'\\udcff'" in done.stderr
        ), "the reason"
    assert place.get("vars.yml") == FILE, "the file stays"


# The numbers of the system calls that wait for several descriptors.
SELECTS = ("23", "270")


def test_slow_input(place: Place, both: list[str]) -> None:
    """The whole text counts, even if another program has set standard input not to wait for it."""
    reader, writer = os.pipe()
    os.set_blocking(reader, False)
    words = [EDIT, *both, "--value", "db_password", "vars.yml"]
    with started(words, stdin=reader, stderr=subprocess.PIPE, cwd=place.tree, env=place.environment) as process:
        os.close(reader)
        for part in (b"one", b" two"):
            wait_until(lambda: is_waiting(process.pid) or process.poll() is not None, "the companion's input")
            os.write(writer, part)
        os.close(writer)
        assert (process.communicate(timeout=SECONDS)[1], process.returncode) == (b"", 0), "it is set"
    check_values(place, both, VALUES | {"db_password": b"one two"})


def is_waiting(number: int) -> bool:
    """Whether a process waits for its standard input."""
    return Path(f"/proc/{number}/syscall").read_text().split()[0] in SELECTS


# Most paths are refused before anything is read.
NEVER = "<> ../never"


class Refusal(NamedTuple):
    """The standard input, the options and the file, and why the edit is refused."""

    standard_input: str
    words: str
    why: str


REFUSED = [
    Refusal(
        standard_input=NEVER,
        words="--encrypt-vault-id prod --value app.users vars.yml",
        why="app.users is a list, a mapping or an alias",
    ),
    Refusal(standard_input=NEVER, words="--value '' vars.yml", why="there is no value ; encrypted here: "),
    Refusal(standard_input=NEVER, words="--value '' --encrypt-vault-id prod vars.yml", why="there is no value ;"),
    Refusal(standard_input=NEVER, words="--value a missing.yml", why="missing.yml: No such file or directory"),
    Refusal(standard_input=NEVER, words="--value a empty.yml", why="empty.yml: there is no value a\n"),
    Refusal(standard_input=NEVER, words="--value a conflict.yml", why="conflict.yml: it has git's conflict markers\n"),
    Refusal(standard_input="< /dev/null", words="--value a relabelled.yml", why="its label is prod, but dev@"),
    Refusal(
        standard_input=NEVER,
        words="--value port vars.yml",
        why="port is not encrypted; to encrypt it there, choose its password with",
    ),
    Refusal(standard_input="< /dev/tty", words="--value db_password vars.yml", why="use a pipe or a file"),
    Refusal(standard_input="< vault.yml", words="--value db_password vars.yml", why="what you gave is a vault"),
    Refusal(standard_input="< /dev/null", words="--value db_password vars.yml", why="standard input is empty"),
    Refusal(standard_input="< ../long", words="--value db_password vars.yml", why="more than a vault can hold"),
]


@pytest.mark.parametrize("standard_input, words, why", REFUSED)
def test_refused(place: Place, both: list[str], standard_input: str, words: str, why: str) -> None:
    """A terminal would show what is typed."""
    os.mkfifo(place.path / "never")
    place.put("vault.yml", VAULT)
    place.put("relabelled.yml", block("dev", b"one", "prod", "a"))
    place.put("../long", bytes((1 << 24) + 1))
    place.put("empty.yml", b"")
    place.put("conflict.yml", b"<<<<<<< ours\na: 1\n=======\na: 2\n>>>>>>> theirs\n")
    place.environment["EDITOR"] = "touch started"
    before = place.files()
    line = f"{EDIT} {' '.join(both)} {words} {standard_input}"
    session = ask(place, "sh", "-c", line, answers=[("", b"\x04")])
    assert (session.returncode, why in session.stderr) == (1, True), session
    assert place.files() == before, "the files stay"
    assert place.left() == [], "no plaintext is left"

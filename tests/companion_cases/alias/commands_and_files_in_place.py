"""ansible-vault-with: the tool's own answers, and files in place. Its own parser refuses invalid command lines."""

import os
from typing import NamedTuple

import pytest

from companion_cases import AWKWARD, PASSWORDS, TEXT, WITH, Place, check_answer, decrypted, ended, sealed, silent, texts
from lib.needs import needs

# Command lines that the tool takes, too, if a secret is added.
SAME = """
    view - < a.yml
    view --require-id-match a.yml
    view < new.yml
    view --vault-password-file <(cat ../secrets/dev) a.yml
    view --vault-password-file prompt new.yml
    view <&-
    decrypt --output=out.yml a.yml
    encrypt --salt salt --output - plain.yml
    encrypt_string --salt salt -n name word
    encrypt_string --salt salt --stdin-name name < plain.yml
    encrypt_string --salt=salt --name=name -- --word
    encrypt_string ''
    rekey --salt salt --new-vault-id prod@../secrets/prod --output - a.yml
    rekey --salt salt --new-vault-password-file=../secrets/prod < a.yml
"""


def prepare(place: Place) -> None:
    files = {"a.yml": sealed("old"), "new.yml": sealed("new"), "plain.yml": TEXT, "prompt": PASSWORDS["new"]}
    for name, content in files.items():
        place.put(name, content)


def run(place: Place, line: str) -> tuple[int, str, str, dict[str, bytes]]:
    """Return the status, the output, the message, and the files that are there afterwards."""
    prepare(place)
    done = place.shell(line, "bash")
    files = place.files()
    for name in files:
        (place.tree / name).unlink()
    return done.returncode, done.stdout, done.stderr, files


@pytest.mark.parametrize("option", ["--vault-password-file={}", "--vault-id=default@{}"])
@pytest.mark.parametrize("line", map(str.strip, SAME.strip().splitlines()))
def test_the_answers_of_the_tool(place: Place, line: str, option: str) -> None:
    """Output, message, status and files are the same, wherever the secret is in the command line."""
    needs("bash")
    command, _, others = line.partition(" ")
    word = option.format(place.secret("old"))
    pair = word.replace("=", " ")
    wanted = run(place, f"ansible-vault {command} {word} {others}")
    lines = [f"{word} {command} {others}", f"{pair} {command} {others}", f"{command} {pair} {others}"]
    # The program refuses an invalid command line with status 2.
    lines += [f"{line} {pair}"] if wanted[0] != 2 and " -- " not in line else []
    assert [run(place, f"{WITH} {each}") for each in lines] == [wanted] * len(lines), lines


OLD, DEV = "--vault-password-file ../secrets/old", "--vault-id dev@../secrets/dev"
STRINGS, REKEY = f"encrypt_string {DEV}", "rekey --vault-id prod@../secrets/old --encrypt-vault-id prod a.yml"
BOTH = f"{OLD} --new-vault-password-file ../secrets/new"
SALT_FOR_ONE = "--salt and --salt-file are for a single FILE or STRING"
NOT_NAMED = "there are more names than STRINGs; --stdin-name is the name of standard input"
NO_NEW = f"{WITH}: no new password is given: name one with --new-vault-id or "


class Refusal(NamedTuple):
    """A command line that is refused, the status, and a part of the message."""

    line: str
    status: int
    part: str


REFUSED = [
    Refusal(line=OLD, status=2, part="no command is given"),
    Refusal(line=f"view {OLD} $'a\\nline.yml'", status=1, part=f"{WITH}: 'a\\nline.yml': No such file or directory\n"),
    Refusal(line=f"encrypt {OLD} --salt-file /dev/zero plain.yml plain.yml", status=2, part=SALT_FOR_ONE),
    Refusal(line=f"{STRINGS} a --stdin-name x --salt salt", status=2, part=SALT_FOR_ONE),
    Refusal(line=f"{STRINGS} a --prompt --salt-file ../secrets/old", status=2, part=SALT_FOR_ONE),
    Refusal(line=f"{STRINGS} --name x < plain.yml", status=2, part=NOT_NAMED),
    Refusal(line=f"{STRINGS} --name x --stdin-name y < plain.yml", status=2, part=NOT_NAMED),
    Refusal(line=f"{STRINGS} --name x - < plain.yml", status=2, part=NOT_NAMED),
    Refusal(line=f"{STRINGS} a --name x --name y", status=2, part=NOT_NAMED),
    Refusal(line=f"{STRINGS} --prompt --name x --name y", status=2, part=NOT_NAMED),
    Refusal(line=f"{STRINGS} a b --encrypt-vault-id prod", status=1, part="no password has the label prod, only dev"),
    Refusal(
        line=f"encrypt {OLD} {DEV} plain.yml",
        status=1,
        part="several passwords could encrypt: dev, default; choose one with --encrypt-vault-id",
    ),
    # The old secret is not taken for the new one, even if it has the label that was chosen.
    Refusal(line=REKEY, status=1, part=NO_NEW),
    Refusal(
        line=f"{REKEY} --new-vault-id dev@../secrets/new",
        status=1,
        part="of the new passwords, no password has the label prod, only dev",
    ),
    Refusal(
        line=f"rekey {OLD} --new-vault-id x@y --new-vault-password-file z a.yml",
        status=2,
        part="rekey takes one new password",
    ),
    Refusal(
        line=f"decrypt {OLD} --output out.yml a.yml plain.yml",
        status=2,
        part=f"{WITH}: error: --output is for a single FILE\n",
    ),
    Refusal(
        line=f"encrypt {OLD} --output - plain.yml -", status=2, part=f"{WITH}: error: --output is for a single FILE\n"
    ),
    Refusal(line=f"rekey {BOTH} --output out.yml a.yml new.yml", status=2, part="--output is for a single FILE\n"),
    Refusal(line=f"rekey {BOTH} --salt salt a.yml new.yml", status=2, part=SALT_FOR_ONE),
    Refusal(line=f"rekey {BOTH} --salt-file plain.yml a.yml new.yml", status=2, part=SALT_FOR_ONE),
    Refusal(line=f"encrypt {OLD} --salt salt plain.yml -", status=2, part=SALT_FOR_ONE),
    # Nobody can type a password.
    Refusal(
        line="view -J a.yml",
        status=1,
        part=f"{WITH}: --ask-vault-password: there is no terminal on which to ask for the password, and standard ",
    ),
    Refusal(
        line="view a.yml",
        status=1,
        part=f"{WITH}: no password is given: name one with --vault-id or --vault-password-file, in ",
    ),
    Refusal(line=f"rekey {OLD} a.yml", status=1, part=NO_NEW),
    # A single file is named, too.
    Refusal(line=f"view {OLD} new.yml", status=1, part=f"{WITH}: new.yml: no secret decrypts this vault (label "),
    Refusal(line=f"view {OLD} plain.yml", status=1, part=f"{WITH}: plain.yml: input is not vault encrypted data"),
    Refusal(
        line=f"view --require-id-match {OLD} plain.yml",
        status=1,
        part=f"{WITH}: plain.yml: input is not vault encrypted data",
    ),
    Refusal(line=f"decrypt {OLD} --output - plain.yml", status=1, part=f"{WITH}: plain.yml: input is not vault "),
    Refusal(line=f"encrypt {OLD} --output - a.yml", status=1, part=f"{WITH}: a.yml: the plaintext is already vault "),
    Refusal(line=f"create {OLD} a.yml", status=1, part="a.yml exists already; use `edit`"),
]


@pytest.mark.parametrize("line, status, part", REFUSED)
def test_refused(place: Place, line: str, status: int, part: str) -> None:
    needs("bash")
    prepare(place)
    before = place.files()
    done = place.shell(f"setsid --wait {WITH} {line}", "bash", EDITOR="touch")
    ended("it is refused", done, status, part)
    assert (done.stdout, done.stderr.count("--help") < 2, place.files()) == ("", True, before), "in one message"


@pytest.mark.parametrize("word", ["-v", "-vvvv", "-v -v", "--verbose", "--verb"])
def test_verbose(place: Place, word: str) -> None:
    """It is ignored, before a command and after it."""
    place.put("a.yml", sealed("old"))
    for line in (f"{word} view {OLD} a.yml", f"view {word} {OLD} a.yml", f"view {OLD} a.yml {word}"):
        check_answer(line, place.shell(f"{WITH} {line}"), output=TEXT.decode())


@pytest.mark.parametrize("option", ["--vault-password-file", "--vault-id", "--vault-pass-file"])
def test_options_around_a_command(place: Place, option: str) -> None:
    """Those before a command and those after it count together, in this order."""
    place.put("a.yml", sealed("old"))
    place.put("dev.yml", sealed("dev"))
    for first, second in (("old", "new"), ("new", "old")):
        words = [WITH, f"{option}=../secrets/{first}", "view", f"{option}=../secrets/{second}"]
        check_answer(first, place.run(*words, "a.yml"), output=TEXT.decode())
        done = place.run(*words, "dev.yml", "dev.yml")
        ended("none", done, 1, f"tried ../secrets/{first}, ../secrets/{second})")


def test_closed_files(place: Place) -> None:
    """A file that cannot be read is named, whoever would open it."""
    place.put("closed.yml", sealed("old"), 0)
    place.path.chmod(0o777)
    lines = [f"view {OLD}", f"decrypt {OLD}", f"encrypt {OLD}", f"rekey {BOTH}"]
    for line in [*lines, *(f"{line} --output -" for line in lines[1:])]:
        done = place.as_nobody(WITH, *line.split(), "closed.yml")
        check_answer(line, done, 1, errors=f"{WITH}: closed.yml: Permission denied\n")
    ended("two", place.as_nobody(WITH, *f"view {OLD} ./closed.yml closed.yml".split()), 1, ": ./closed.yml: Permission")
    done = place.as_nobody(WITH, "edit", *OLD.split(), "closed.yml")
    check_answer("edit", done, 3, errors=f"{WITH}: closed.yml: Permission denied\n")


def test_in_place(place: Place) -> None:
    """Several files and the file of a link are replaced. Only the owner may read what is decrypted."""
    contents = {name: name.encode() for name in [*AWKWARD, "folder/a.yml"]}
    for name, text in contents.items():
        place.put(name, text, 0o640)
    (place.tree / "link.yml").symlink_to("folder/a.yml")
    words = [*place.by_id("dev", "dev"), "--", *AWKWARD, "link.yml"]
    silent("encrypt", place.run(WITH, "encrypt", *words))
    found = {name: (decrypted("dev", place.get(name)), place.mode(name)) for name in contents}
    assert found == {name: (text, "0o640") for name, text in contents.items()}, "the modes stay"
    silent("decrypt", place.run(WITH, "decrypt", *words))
    assert place.files() == contents | {"link.yml": contents["folder/a.yml"]}, "no other file is left"
    assert {place.mode(name) for name in contents} == {"0o600"}, "for its owner alone"
    assert os.readlink(place.tree / "link.yml") == "folder/a.yml", "the link stays"


def test_those_that_fail(place: Place) -> None:
    """Files that fail stay as they are, and the others are still processed. The status is the highest."""
    prepare(place)
    before = place.files()
    memory = r'printf "ERROR! out of \\033memory\n" >&2; exit 4'
    place.wrap_tool(f'case "$*" in rekey*) mkdir ../once 2> /dev/null && {{ {memory}; }} ;; esac')
    tried = f"(label default; tried {place.secret('old')}): name its password with --vault-id LABEL@SOURCE"
    whys = {"missing.yml": "No such file or directory", "plain.yml": r"out of \x1bmemory"}
    whys["new.yml"] = f"no secret decrypts this vault {tried}"
    done = place.run(WITH, "rekey", *place.by_file("old"), *place.by_file("dev", "new-"), *whys, "a.yml")
    messages = "".join(f"{WITH}: {name}: {why}\n" for name, why in whys.items())
    check_answer("those that fail", done, 4, errors=messages)
    assert decrypted("dev", place.get("a.yml")) == TEXT, "the others go on"
    assert place.files() == before | {"a.yml": place.get("a.yml")}, "and these stay"


def test_several_views(place: Place) -> None:
    """Each text begins on a line of its own. A script is run once."""
    for name, text in {"a.yml": TEXT, "b.yml": b"no line end", "-c.yml": b""}.items():
        place.put(name, sealed("old", text))
    place.script("mkdir ../once && cat ../secrets/old")
    done = place.shell(f"{WITH} view --vault-id ../script -- b.yml -c.yml a.yml b.yml")
    check_answer("four views", done, output=f"no line end\n{TEXT.decode()}no line end")


def test_several_strings(place: Place) -> None:
    place.wrap_tool('echo "$@" >> ../seen')
    done = place.shell(f"{WITH} {STRINGS} 'a word' another --name x --output blocks.yml")
    notes = ["# Value 1 is the variable x, from the command line."]
    notes.append("# Value 2 is a string without a name, from the command line.")
    check_answer("two strings", done, errors="".join(f"{note}\n" for note in notes))
    assert texts(place.get("blocks.yml"), "dev") == [b"a word", b"another"], "both are encrypted"
    assert place.mode("blocks.yml") == "0o600", "for its owner alone"
    assert "word" not in (place.path / "seen").read_text(), "strings are no arguments of the tool"


# Bytes that a shell gives as a word, not all of them UTF-8.
WORDS = [b"gr\xf6\xdfe", b"gr\xc3\xb6\xc3\x9fe", b"\xff", b"\xed\xa0\x80", b" a\n", b"-x", bytes(range(1, 256))]


def test_bytes_of_strings(place: Place) -> None:
    """Each of several strings is encrypted byte for byte."""
    words = [WITH, "encrypt_string", *place.by_file("dev"), "--output", "blocks.yml", "--", *map(os.fsdecode, WORDS)]
    assert place.run(*words).returncode == 0
    assert texts(place.get("blocks.yml"), "dev") == WORDS


def test_create(place: Place) -> None:
    """Options reach ansible-vault-edit, and a word of newer releases is ignored."""
    words = ["--skip-tty-check", *place.by_id("dev", "dev"), *place.by_id("prod", "prod"), "--encrypt-vault-id", "prod"]
    editor = place.script('echo more >> "$1"', "editor")
    done = place.run(WITH, "create", *words, "c.yml", EDITOR=editor)
    check_answer("create", done, errors="ansible-vault-edit: c.yml: encrypted the new vault (label prod)\n")
    assert decrypted("prod", place.get("c.yml")) == b"more\n"

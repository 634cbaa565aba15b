"""ansible-vault-textconv, alone and as git runs it."""

import json
import os
import re
import textwrap
from typing import NamedTuple

import pytest

from ansible_vault_companions.limits import LONGEST_VAULT
from companion_cases import AWKWARD, NOT_DECRYPTED, NOT_ENCRYPTED, TEXT, TEXTCONV, Place
from companion_cases import block, check_answer, ended, first_line, line_of_values, sealed
from companion_cases.repository import add_and_commit, under_git
from lib.needs import needs


def labeled(label: str) -> bytes:
    return first_line(label).encode()


AROUND = "# größe\r\n".encode()
BLOCKS = AROUND + block("old", b"one") + block("new", b"two\nthree", name="x") + b"# end"
SHOWN = AROUND + b"secret: !vault |-\n  one\nx: !vault |-\n  two\n  three\n# end"
OTHER, MALFORMED = block("dev", label="x"), b"$ANSIBLE_VAULT 1.1\n"
NO_SECRET = "shown as it is: no secret decrypts this vault"
NO_VAULT = ": shown as it is: it is not a vault and has no encrypted value\n"
SIDES = b"<<<<<<< a\n%s=======\n%s>>>>>>> b\n" % (sealed("old", b"1\n2\n"), sealed("new", b"1\n3\n"))
SIDES_SHOWN = b"<<<<<<< a\n1\n2\n=======\n1\n3\n>>>>>>> b\n"
TAGGED = b"secret: !vault plain\n"
MERGED = b"1\n<<<<<<< ours\n2\n=======\n3\n>>>>>>> theirs\n"
CONFLICT = b"<<<<<<< a\n%s=======\n%s>>>>>>> b\n"
# Two vaults with one header, which git leaves above the conflict; and two of which one is for another password.
HEADER, OURS = sealed("old", b"1\n2\n").split(b"\n", 1)
TORN = HEADER + b"\n" + CONFLICT % (OURS, sealed("new", b"1\n3\n").split(b"\n", 1)[1])
OURS_ALONE = CONFLICT % (sealed("old", b"1\n"), sealed("dev"))
NO_YAML = b"{% if x %}\nx: [ # `!vault`\n"
NO_UTF_8 = block("old", b"\xff")
COMMENT = b"".join(b"  # " + line for line in sealed("old", b"one\ntwo\n").splitlines(keepends=True))
CR_LF = (block("old", b"one\ntwo") + block("old", b"", name="x")).replace(b"\n", b"\r\n")


class Content(NamedTuple):
    """The content of a file, the first line, what follows it, and how the message begins after the file's name."""

    content: bytes
    line: str
    shown: bytes
    told: str


CONTENTS = {
    "a vault": Content(content=sealed("old", b"\x00\xff", "prod"), line=first_line("prod"), shown=b"\x00\xff", told=""),
    "a vault without a label": Content(content=sealed("old", b"1"), line=first_line("default"), shown=b"1", told=""),
    "blocks": Content(content=BLOCKS, line=line_of_values(2), shown=SHOWN, told=""),
    "a list": Content(
        content=b"a:\n- " + block("old", b"one", name=""),
        line=line_of_values(1),
        shown=b"a:\n- !vault |-\n  one\n",
        told="",
    ),
    "two blocks": Content(
        content=OTHER + block("old", b" a\n\n"),
        line=line_of_values(2),
        shown=OTHER + b"secret: !vault |2+\n   a\n\n",
        told=f":2: {NO_SECRET} (",
    ),
    "a comment": Content(
        content=b"a: 1\n" + COMMENT + b"b: 2\n",
        line=line_of_values(1),
        shown=b"a: 1\n  # one\n  # two\nb: 2\n",
        told="",
    ),
    "other line ends": Content(
        content=CR_LF, line=line_of_values(2), shown=b"secret: !vault |-\r\n  one\r\n  two\r\nx: !vault |-\r\n", told=""
    ),
    "no UTF-8": Content(
        content=NO_UTF_8, line=line_of_values(1), shown=NO_UTF_8, told=":2: shown as it is: it is not UTF-8\n"
    ),
    "another vault": Content(
        content=sealed("dev"), line=NOT_DECRYPTED, shown=sealed("dev"), told=f": {NO_SECRET} (label default; tried "
    ),
    "a malformed header": Content(
        content=MALFORMED,
        line=NOT_DECRYPTED,
        shown=MALFORMED,
        told=": shown as it is: it is damaged: vault header line is malformed",
    ),
    "a conflict": Content(content=SIDES, line=first_line("default"), shown=MERGED, told=""),
    "a conflict with markers between the digits": Content(
        content=TORN, line=first_line("default"), shown=MERGED, told=""
    ),
    "a conflict of which one side is decrypted": Content(
        content=OURS_ALONE,
        line=line_of_values(2),
        shown=CONFLICT % (b"1\n", sealed("dev")),
        told=f":{OURS_ALONE.splitlines().index(b'=======') + 2}: {NO_SECRET} (",
    ),
    "a conflict that does not end": Content(
        content=SIDES + b"<<<<<<< a\n", line=line_of_values(2), shown=SIDES_SHOWN + b"<<<<<<< a\n", told=""
    ),
    "plaintext": Content(content=TEXT, line=NOT_ENCRYPTED, shown=TEXT, told=NO_VAULT),
    "no YAML": Content(content=NO_YAML, line=NOT_ENCRYPTED, shown=NO_YAML, told=NO_VAULT),
    "a tagged plaintext": Content(content=TAGGED, line=NOT_ENCRYPTED, shown=TAGGED, told=""),
    "nothing": Content(content=b"", line=NOT_ENCRYPTED, shown=b"", told=NO_VAULT),
}


@pytest.mark.parametrize("content, line, shown, told", CONTENTS.values(), ids=CONTENTS)
def test_shown(place: Place, content: bytes, line: str, shown: bytes, told: str) -> None:
    """What cannot be decrypted is shown as it is, and git continues."""
    place.put("-a.yml", content)
    done = place.run_on(b"", TEXTCONV, *place.by_file("old"), *place.by_file("new"), "--", "-a.yml")
    assert done.returncode == 0, "git continues"
    assert done.stdout == line.encode() + shown, "what is shown"
    if told:
        assert done.stderr.decode().startswith(f"{TEXTCONV}: -a.yml{told}"), "the reason"
    else:
        assert done.stderr == b"", "there is nothing to say"


@pytest.mark.parametrize("forged", [first_line("prod"), line_of_values(1), NOT_ENCRYPTED, NOT_DECRYPTED])
def test_forged_line(place: Place, forged: str) -> None:
    """A text that begins like another kind of file comes after the line of its own."""
    kinds = {
        first_line("dev"): sealed("old", forged.encode() + TEXT, "dev"),
        line_of_values(1): forged.encode() + block("old"),
        NOT_ENCRYPTED: forged.encode() + TEXT,
    }
    for line, content in kinds.items():
        place.put("a.yml", content)
        done = place.run(TEXTCONV, *place.by_file("old"), "a.yml")
        assert done.stdout.startswith(line + forged), done


@pytest.mark.parametrize("start", (b"", sealed("old"), block("old")), ids=("plaintext", "a vault", "a value"))
def test_longer_than_any_vault(place: Place, start: bytes) -> None:
    """It is shown as it is, with the reason if it has an envelope, so `git diff` goes on."""
    place.put("a.yml", start)
    os.truncate(place.tree / "a.yml", LONGEST_VAULT + 1)
    words = f"{TEXTCONV} --vault-id {place.secret('old')} a.yml"
    done = place.shell(f'{words} | {{ read -r line; echo "$line"; wc -c; }}')
    first = NOT_DECRYPTED if start else NOT_ENCRYPTED
    why = (
        "it has more than 100,671,488 bytes, more than any vault\n" if start else NO_VAULT[len(": shown as it is: ") :]
    )
    check_answer("all of it", done, 0, f"{first}{LONGEST_VAULT + 1}\n", f"{TEXTCONV}: a.yml: shown as it is: {why}")


def test_several_files(place: Place) -> None:
    """Each has a heading, and one that cannot be read does not keep others from being shown. The passwords are read
    once. A single value has no first line, and a single file no heading."""
    place.put("a.yml", sealed("old", b"1", "prod"))
    place.put("\x1b.yml", TEXT)
    script = place.script('echo >> ../started; cat "$HOME/secrets/old"')
    files = ["a.yml", "missing.yml", "\x1b.yml", "a.yml"]
    done = place.run(TEXTCONV, "--vault-id", script, *files)
    first = f"==> a.yml <==\n{labeled('prod').decode()}1"
    others = f"==> missing.yml <==\n\n==> '\\x1b.yml' <==\n{NOT_ENCRYPTED}{TEXT.decode()}"
    assert (done.returncode, done.stdout) == (1, f"{first}\n{others}\n{first}"), done
    told = [f"{TEXTCONV}: missing.yml: No such file or directory", f"{TEXTCONV}: '\\x1b.yml'{NO_VAULT.rstrip()}"]
    assert done.stderr.splitlines() == told
    assert (place.path / "started").read_text() == "\n"
    done = place.run(TEXTCONV, *place.by_file("old"), "--value", "a", "a.yml", "a.yml")
    ended("values", done, 2, "--value takes one FILE\n")


def test_conflict_of_labels(place: Place) -> None:
    place.put(
        "a.yml", b"<<<<<<< a\n%s=======\n%s>>>>>>> b\n" % (sealed("dev", b"1", "dev"), sealed("prod", b"1", "prod"))
    )
    done = place.run(TEXTCONV, *place.by_id("dev", "dev"), *place.by_id("prod", "prod"), "a.yml")
    check_answer("textconv", done, output=labeled("dev and prod").decode() + "1")


def test_differences(place: Place) -> None:
    """git shows that a vault has become plaintext, has another label or is a vault again, although the text stays."""
    needs("git")
    under_git(place, "* diff=ansible-vault\n")
    place.run("git", "config", "diff.ansible-vault.textconv", " ".join([TEXTCONV, *place.by_file("old")]))
    versions = {
        "encrypted, label prod": sealed("old", label="prod"),
        "encrypted, label dev": sealed("old", label="dev"),
    }
    versions |= {"not encrypted": TEXT, "encrypted, label default": sealed("old")}
    for content in versions.values():
        place.put("vault.yml", content)
        add_and_commit(place)
    done = place.shell("git log -p --reverse --format= -- vault.yml")
    changed = re.findall("^[-+] *# ansible-vault: (.*)", done.stdout, re.MULTILINE)
    prod, dev, plain, default = versions
    assert changed == [prod, prod, dev, dev, plain, plain, default], done


def in_string(text: bytes) -> bytes:
    """Return YAML with a value, and with a string that has this text."""
    return block("old", b"one") + b"text: |\n" + textwrap.indent(text.decode(), "  ").encode()


# It says nothing of what is encrypted.
BEGUN = b"# $ANSIBLE_VAULT;1.1;AES256 0123456789abcdef\n# $ANSIBLE_VAULT;1.1;AES256\n# 0123456789abcdef\n"
OF_JSON = '{"a": {"__ansible_vault": %s}}'
# A file, and what becomes of it if a value is decrypted.
DECRYPTED_VALUES = {
    "a value that keeps its tag": (block("old", b"one"), b"secret: !vault |-\n  one\n"),
    "an envelope in a string": (in_string(sealed("old")), in_string(TEXT)),
    "a value above the beginning of one": (BEGUN + block("old", b"one"), BEGUN + b"secret: one\n"),
    "JSON": ((OF_JSON % json.dumps(sealed("old", b"one").decode())).encode(), (OF_JSON % '"one"').encode()),
}


@pytest.mark.parametrize("what", DECRYPTED_VALUES)
def test_decrypted_values(place: Place, what: str) -> None:
    """git shows that a value was decrypted, even if its text and its tag stay."""
    needs("git")
    under_git(place, "* diff=ansible-vault\n")
    place.run("git", "config", "diff.ansible-vault.textconv", " ".join([TEXTCONV, *place.by_file("old")]))
    encrypted, plain = DECRYPTED_VALUES[what]
    place.put("vars.yml", encrypted)
    add_and_commit(place)
    place.put("vars.yml", plain)
    done = place.run("git", "diff")
    count = encrypted.count(b"$ANSIBLE_VAULT") - BEGUN.count(b"$ANSIBLE_VAULT") * (BEGUN in encrypted)
    after = line_of_values(count - 1) if count > 1 else NOT_ENCRYPTED
    assert f"-{line_of_values(count)}+{after}" in done.stdout, done


def test_messages(place: Place) -> None:
    """git shows the differences, and no name of a file cuts off those of other files. Below a message it keeps them in
    a file, wherever the worktree is, so there they contain no plaintext."""
    needs("git")
    under_git(place, "* diff=ansible-vault\n")
    place.run("git", "config", "diff.ansible-vault.textconv", " ".join([TEXTCONV, *place.by_file("old")]))
    for text in (b"password: first\n", b"password: second\n"):
        add_and_commit(place)
        for name in AWKWARD:
            place.put(name, sealed("old", text))
    done = place.shell("git add -A && git diff --cached")
    changed = re.findall(r"^[-+] *(password: .*)", done.stdout, re.MULTILINE)
    check_answer("git diff", done, output=None)
    assert changed == ["password: first", "password: second"] * len(AWKWARD), "each file is shown"
    place.shell("git commit -qm one && git worktree add -q ../second HEAD~1 && cp -- * ../second")
    editor = place.script('cp "$1" ../message; sed -i 1s/^/m/ "$1"', "editor")
    done = place.shell("git commit -av", folder="../second", EDITOR=editor)
    why = "shown as it is: its plaintext would stay in git's file COMMIT_EDITMSG; `git diff --cached` shows it\n"
    ended("the commit", done, 0, why)
    assert (place.path / "message").read_text().count("\n+++ ") == len(AWKWARD), "the differences are there"
    texts = re.compile(b"password: (first|second)")
    kept = [path for path in place.path.rglob("*") if path.is_file() and texts.search(path.read_bytes())]
    assert kept == [], "no plaintext is left"


# How a file is made that cannot be read, and why.
UNREADABLE = {
    "nothing": (":", "No such file or directory"),
    "a directory": ("mkdir a.yml", "Is a directory"),
    "a pipe": ("mkfifo a.yml", "it is not a regular file"),
    "a loop": ("ln -s a.yml a.yml", "Too many levels of symbolic links"),
    "a closed file": ("echo x > a.yml; chmod 0 a.yml", "Permission denied"),
    "a device": ("ln -s /dev/null a.yml", "it is not a regular file"),
}


@pytest.mark.parametrize("where", ("", "7> COMMIT_EDITMSG"), ids=["alone", "beside a commit message"])
@pytest.mark.parametrize("line, why", UNREADABLE.values(), ids=UNREADABLE)
def test_unreadable_files(place: Place, line: str, why: str, where: str) -> None:
    """Nothing is shown of what cannot be read, not even a first line, as if there were a file."""
    place.put("COMMIT_EDITMSG", b"", 0o666)
    place.shell(line)
    done = place.as_nobody("sh", "-c", f"{TEXTCONV} {' '.join(place.by_file('old'))} a.yml {where}")
    assert (done.returncode, done.stdout) == (1, ""), "the status and what is shown"
    assert why in done.stderr, "the reason"

"""ansible-vault-check; and every companion's help, invalid command lines, secrets that it refuses, and links to it."""

import os
import re
import subprocess
from typing import NamedTuple

import pytest

from companion_cases import BODY, CHECK, EDIT, HOOK, MERGE, ROTATE, TEXT, TEXTCONV, WITH, Place, block, ended
from companion_cases import check_answer, lines_of, sealed, summary, to_new
from lib.paths import COMPANIONS
from lib.processes import run_text
from model.vaults import seal


def test_labels_and_secrets(place: Place) -> None:
    """Of two secrets with the same password, the one with the label of the envelope is tried first."""
    place.put("a.yml", sealed("old"))
    place.put("b.yml", sealed("prod", label="prod"))
    place.put("c.yml", b"x: 1\n" + block("dev", label="dev") + block("prod", name=r'"\e[2J"'))
    place.put("d.yml", sealed("old", label="default"))
    place.put("e.yml", block("new", label="stage"))
    place.put("f.json", b'{"x": {"__ansible_vault": "%s"}}' % sealed("old").replace(b"\n", b"\\n"))
    place.put("g.yml", b"x:\n- y: &z !vault |- # why\n" + BODY + b"\n- !vault-encrypted |\n" + BODY)
    place.put("header.yml", b"$ANSIBLE_VAULT\x1b[31m;1.1\n")
    secrets = [*place.by_file("prod"), *place.by_id("dev", "dev"), *place.by_id("prod", "prod"), *place.by_file("old")]
    default, dev, prod, old = secrets[1::2]
    before = place.files()
    done = place.run(CHECK, *secrets, ".", "missing")
    line = 3 + block("dev", label="dev").count(b"\n")
    wanted = [
        f"./a.yml: default: decrypted by {old}",
        f"./b.yml: prod: decrypted by {prod}",
        f"./c.yml:3: secret: dev: decrypted by {dev}",
        f"./c.yml:{line}: '\\x1b[2J': default: decrypted by {default}",
        f"./d.yml: default: decrypted by {old}",
        f"./f.json:1: x: default: decrypted by {old}",
        f"./g.yml:3: y: default: decrypted by {old}",
        f"./g.yml:{4 + len(BODY.splitlines())}: default: decrypted by {old}",
        "8 decrypted, 3 failed",
    ]
    assert done.stdout.splitlines() == wanted, "what is decrypted"
    assert len(done.stderr.splitlines()) == 3, "what is not has a line each"
    assert place.files() == before, "nothing is written"
    tried = f"(label stage; tried {dev}, {prod}, {default}, {old}): name its password with --vault-id LABEL@SOURCE\n"
    parts = [
        f"./e.yml:2: secret: stage: no secret decrypts this vault {tried}",
        "./header.yml: no label: it is damaged: vault header",
    ]
    ended("what is not", done, 1, *(f"{CHECK}: {part}" for part in (*parts, "missing: No such file or directory\n")))


# It would control the terminal, and begin a line that looks like a message.
HOSTILE = "\x1b]0;owned\a\x9b\nansible-vault:fine"
OLD, NEW = "--vault-password-file ../secrets/old", "--new-vault-password-file ../secrets/new"
INVALID = [
    (CHECK, f"{OLD} --{HOSTILE} a.yml"),
    (EDIT, f"{OLD} --new-vault-id x@y a.yml"),
    (EDIT, f"{OLD} --vault-i x a.yml"),
    (EDIT, f"{OLD} --value x a.yml b.yml"),
    (EDIT, f"{OLD} --value x --resume a.yml"),
    (HOOK, "--all --install"),
    (MERGE, ""),
    (ROTATE, f"{OLD} ."),
    (ROTATE, f"{OLD} {NEW} --new-vault-password-file ../secrets/dev ."),
    (TEXTCONV, "--vault-password-file a.yml"),
]


def check_printable(text: str) -> None:
    lines = text.splitlines()
    assert lines and all(line.isprintable() for line in lines), "in printable characters"
    assert not any(line.startswith("ansible-vault:fine") for line in lines), "and no line is forged"


@pytest.mark.parametrize("name, line", INVALID)
def test_invalid_command_lines(place: Place, name: str, line: str) -> None:
    place.put("a.yml", sealed("old"))
    done = place.run(name, *filter(None, line.split(" ")))
    ended("it is refused", done, 2, f"usage: {name}")
    check_printable(done.stderr)


LONG = b"p" * 4097
# As with Ansible, a file is a script if anybody may execute it. Then root may, too.
EXECUTABLE = 0o755 if os.geteuid() else 0o601
# The contents of password files that are refused, and why. None stands for a missing file.
REFUSED = [
    (None, "No such file or directory"),
    (b" \n", "a password is empty"),
    (LONG, "a password file is longer than 4096 bytes"),
    (b"$ANSIBLE_VAULT", "a password file is itself a vault"),
    (b"#!/bin/sh\nprintf '\\033'\nexit 1\n", "this script ended with status 1"),
    (b"#!/bin/sh\nprintf %04097d 0 | tr 0 p\n", "a password file is longer than 4096 bytes"),
    # It is no script, since nobody may run it.
    (b"#! no path\n", "a password file is a script"),
]


class Run(NamedTuple):
    """A companion, the option that names the secret, and the other words."""

    name: str
    option: str
    line: str


RUNS = [
    Run(name=CHECK, option="--vault-id", line="a.yml"),
    Run(name=EDIT, option="--vault-id", line="a.yml"),
    Run(name=ROTATE, option="--vault-id", line=f"{NEW} a.yml"),
    Run(name=ROTATE, option="--new-vault-id", line=f"{OLD} a.yml"),
    Run(name=WITH, option="--vault-id", line="decrypt a.yml"),
]


@pytest.mark.parametrize("content, why", REFUSED, ids=map(str, range(len(REFUSED))))
@pytest.mark.parametrize("name, option, line", RUNS)
def test_refused_secrets(place: Place, name: str, option: str, line: str, content: bytes | None, why: str) -> None:
    """All stays, and the secret is named in one line. A password that is too long is not cut: it could decrypt."""
    place.put("a.yml", vault := seal(LONG[:-1], TEXT))
    if content is not None:
        place.put(f"../{HOSTILE}", content, EXECUTABLE if content.startswith(b"#!/") else 0o644)
    secret = f"dev@../{HOSTILE}"
    done = place.run(name, f"{option}={secret}", *line.split(), EDITOR="touch started")
    ended("it is refused", done, 1, f"{ascii(secret)}: {why}")
    check_printable(done.stderr)
    assert place.files() == {"a.yml": vault}, "it stays, and no editor is started"


@pytest.mark.parametrize("name", COMPANIONS)
def test_help(name: str) -> None:
    """It fits a screen, unless it has the rules of the hook or all of Ansible's commands. How many lines the usage has
    depends on Python's release."""
    text = run_text([str(COMPANIONS[name]), "--help"]).stdout
    lines = text.splitlines()
    assert "\n  $ " in text and lines[-1] == f"See `man {name}` for more. Companions are tested, not proved."
    assert max(map(len, lines)) <= 80, "its columns"
    _, _, explanation = text.partition("\n\n")
    assert len(explanation.splitlines()) <= 31 or name in (HOOK, WITH), "its lines"
    assert "None" not in map(str.strip, lines)


class Vanishing(NamedTuple):
    """What happens to files between the search and their reading, the paths, the status, and what is said."""

    change: str
    paths: list[str]
    status: int
    said: str


VANISHED = {
    "a file": Vanishing(change="rm -f t/z.yml", paths=["t"], status=0, said="41 decrypted, 0 failed\n"),
    "a directory": Vanishing(change="rm -rf t/z", paths=["t"], status=0, said="41 decrypted, 0 failed\n"),
    "a directory that is renamed": Vanishing(change="mv t/z y", paths=["t"], status=0, said="41 decrypted, 0 failed\n"),
    "a directory that becomes a file": Vanishing(
        change="rm -rf t/z; : > t/z", paths=["t"], status=1, said="t/x.yml: Not a directory\n"
    ),
    "a directory that becomes a link to nothing": Vanishing(
        change="mv t/z y; ln -s x t/z", paths=["t"], status=0, said="41 decrypted, 0 failed\n"
    ),
    "a directory that becomes a loop": Vanishing(
        change="mv t/z y; ln -s z t/z", paths=["t"], status=1, said="it is not a regular file\n"
    ),
    "the directory that is named": Vanishing(change="mv t y", paths=["t"], status=0, said="0 failed\n"),
    "a file that becomes a directory": Vanishing(
        change="rm -rf t/z.yml; mkdir -p t/z.yml", paths=["t"], status=1, said="t/z.yml: Is a directory\n"
    ),
    "a named file": Vanishing(
        change="rm -f t/z.yml", paths=["t", "t/z.yml"], status=1, said="t/z.yml: No such file or directory\n"
    ),
    "a named file, spelled otherwise": Vanishing(
        change="rm -f t/z.yml", paths=["t", "t/z/../z.yml"], status=1, said="t/z.yml: No such file or directory\n"
    ),
    "one of its paths": Vanishing(change="rm -f t/x.yml", paths=["t"], status=0, said="42 decrypted, 0 failed\n"),
}


@pytest.mark.parametrize("change, paths, status, said", VANISHED.values(), ids=VANISHED)
def test_vanished_files(place: Place, change: str, paths: list[str], status: int, said: str) -> None:
    """A file that is found and then vanishes is no failure, but a named one is. One that has lost one of its paths is
    still checked. The first of many files is decrypted before the last ones are read."""
    place.wrap_tool(f'[ "$1" != view ] || {{ {change}; }} 2> /dev/null')
    for name in [*(f"{number}.yml" for number in range(40)), "z.yml", "z/a.yml"]:
        place.put(f"t/{name}", sealed("old"))
    (place.tree / "t/x.yml").symlink_to("z/a.yml")
    done = place.run(CHECK, *place.by_file("old"), *paths)
    ended("the check", done, status, said)
    assert bool(done.stderr) == bool(status)


# Lines of git between which two sides of a plaintext are.
MERGE_SIDES = b"<<<<<<< HEAD\na: 1\n=======\na: 2\n>>>>>>> branch\n"
# Where a plaintext with them is, and how many vaults and values there are.
UNMERGED = {
    "a vault": (sealed("old", MERGE_SIDES), 1),
    "a value": (block("old", MERGE_SIDES), 1),
    "a value in a vault": (sealed("old", block("old", MERGE_SIDES)), 2),
    "a value in a value": (block("old", block("old", MERGE_SIDES)), 2),
}


@pytest.mark.parametrize("content, count", UNMERGED.values(), ids=UNMERGED)
def test_conflicts_in_plaintexts(place: Place, content: bytes, count: int) -> None:
    place.put("a.yml", content)
    done = place.run(CHECK, *place.by_file("old"), "a.yml")
    ended(
        "the check", done, 1, ": default: its plaintext has git's conflict markers\n", f"{count} decrypted, 1 failed\n"
    )


# Names of YAML, and of a link to a file with any name, and whether a file that cannot be read as YAML is a failure.
NAMES = ["a.yml", "b.yaml", "c.json", "d.YML", "e.Yaml", "f.JSON"]
LINKED = {"l.yml": "g", "m": "a.yml", "n.json": "h.txt"}


@pytest.mark.parametrize("rest", [b"[\n", b"\0"], ids=["an open bracket", "a null character"])
def test_names_of_yaml(place: Place, rest: bytes) -> None:
    """A file with a value that cannot be read as YAML fails if it has the name of it, or if a link to it has."""
    for name in [*NAMES, "g", "h.txt", "other.txt"]:
        place.put(name, block("old") + rest)
    for name, target in LINKED.items():
        (place.tree / name).symlink_to(target)
    why = "it cannot be read as YAML: "
    done = place.run(CHECK, *place.by_file("old"), ".")
    named = re.findall(rf"^{CHECK}: \./(.*?): (?:line \d+: )?{why}", done.stderr, re.MULTILINE)
    assert named == [*NAMES, "g", "h.txt"], done
    for name in (*NAMES, *LINKED):
        ended(name, place.run(CHECK, *place.by_file("old"), name), 1, f"{CHECK}: {name}: ", why)
        # A rotation finds the envelopes of what is text.
        assert (why in place.run(ROTATE, *to_new(place), name).stderr) == (rest == b"\0"), name
    ended("another name", place.run(CHECK, *place.by_file("old"), "other.txt"), 0)


def test_beside_a_rotation(place: Place) -> None:
    """It finds each vault once, and no temporary file, while a rotation replaces them."""
    names = [f"{number}.yml" for number in range(25)]
    for name in names:
        place.put(name, sealed("old"))
    old, new = place.by_file("old"), place.by_file("new")
    there = " ".join([ROTATE, *old, *place.by_file("new", "new-"), "."])
    back = " ".join([ROTATE, *new, *place.by_file("old", "new-"), "."])
    words = ["sh", "-c", f"while [ ! -e ../stop ]; do {there} && {back} || exit; done"]
    overlaps = 0
    with subprocess.Popen(words, cwd=place.tree, env=place.environment, stdout=subprocess.DEVNULL) as rotation:
        try:
            while overlaps < 8:
                before = [os.stat(place.tree / name).st_ino for name in names]
                done = place.run(CHECK, *old, *new, ".")
                check_answer("a check meanwhile", done, output=None)
                assert done.stdout.endswith("\n25 decrypted, 0 failed\n"), "each is decrypted"
                assert rotation.poll() is None, "the rotation goes on"
                overlaps += before != [os.stat(place.tree / name).st_ino for name in names]
        finally:
            (place.path / "stop").touch()
    assert rotation.returncode == 0


def test_same_password_in_another_file(place: Place) -> None:
    """Ansible strips the white space around a password, so this file contains the same secret, of the greatest length
    here. An input that does not fit into a pipe is written completely."""
    place.put("a.yml", vault := seal(LONG[:-7], TEXT * 20_000, b"dev"))
    place.put("../first", LONG[:-7])
    place.put("../again", b" \t%s \r\n\n" % LONG[:-7])
    done = place.run(ROTATE, "--vault-id=dev@../first", "--new-vault-id=dev@../again", ".")
    check_answer("the rotation", done, output=f"{summary(0, 1)}\n")
    assert place.files() == {"a.yml": vault}, "nothing is written"


@pytest.mark.parametrize("holder", ("first", "first/second"))
def test_chain_of_links(place: Place, holder: str) -> None:
    """The tool is found beside any link that leads to the companion, relative or absolute."""
    place.put("a.yml", sealed("old"))
    for name, target in (("first", f"second/{CHECK}"), ("first/second", os.readlink(place.tools / CHECK))):
        (place.path / name).mkdir()
        (place.path / name / CHECK).symlink_to(target)
    (place.tools / "ansible-vault").rename(place.path / holder / "ansible-vault")
    place.script('echo "ansible-vault [core 2.14.18]"', "tools/ansible-vault")
    done = place.run(f"../first/{CHECK}", *place.by_file("old"), ".")
    ended("the check", done, 0, "1 decrypted, 0 failed")


def test_named_as_the_tool(place: Place) -> None:
    """For scripts that call `ansible-vault`, a link of that name leads to the companion."""
    place.put("a.yml", sealed("old"))
    (place.tree / "ansible-vault").symlink_to(place.tools / WITH)
    assert place.run("./ansible-vault", "view", *place.by_file("old"), "a.yml").stdout == TEXT.decode()


def test_many_values(place: Place) -> None:
    """No number of values, levels or keys is too many for a companion that reads files."""
    value = b"!vault |\n%s\n" % lines_of(sealed("old"), 2)
    many = b"".join(b"k%d: %s" % (number, value) for number in range(2_000))
    place.put("a.yml", many)
    place.put("b.yml", b"deep: " + b"[" * 300 + b"]" * 300 + b"\nkeys: [%s]\n" % (b"{a: 1}, " * 20_000) + block("old"))
    ended("a check", place.run(CHECK, *place.by_file("old"), "."), 0, "2001 decrypted, 0 failed")
    shown = place.run_on(b"", TEXTCONV, *place.by_file("old"), "a.yml").stdout
    assert shown.count(TEXT) == 2_000, "all of them are shown"

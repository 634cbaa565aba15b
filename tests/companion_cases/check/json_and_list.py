"""The results of ansible-vault-check and ansible-vault-rotate as JSON, and lists without a password."""

import json
import os
import re

from typing import Any

import pytest

from companion_cases import AWKWARD, CHECK, ROTATE, Done, Place, block, ended, sealed, summary, to_new

# The names of fields in their order.
FIELDS = ["path", "line", "key_path", "within", "label", "result", "message"]
NOWHERE: dict[str, Any] = {"line": None, "key_path": None, "within": None}
WHOLE = {"line": None, "key_path": None, "within": NOWHERE}
INNER = block("prod", label="prod", name="a") + block("dev", label="dev", name="b.c")
DAMAGED = b"twice: !vault |\n  $ANSIBLE_VAULT;1.2;AES256;old\n  6162\n"


def fill(place: Place) -> None:
    place.put("a.yml", b"x:\n- y: &z !vault |\n" + b"\n".join(b"   " + line for line in sealed("old").splitlines()))
    place.put("b.yml", sealed("prod", INNER, "prod"))
    place.put("c.yml", block("new", label="new") + DAMAGED)
    place.put("d.md", b"An example:\n\n" + block("dev", label="old"))
    place.put("plain.yml", b"port: 1\n")
    (place.tree / "out.yml").symlink_to("../secrets/old")
    (place.tree / "folder").symlink_to("../secrets")


def read(done: Done) -> list[dict[str, Any]]:
    """Return the objects. All of the output is printable ASCII, and standard error gets nothing."""
    assert done.stderr == "" and done.stdout.isascii() and done.stdout.replace("\n", "").isprintable(), done
    found = [json.loads(line) for line in done.stdout.splitlines()]
    assert all([*each] == FIELDS for each in found), found
    return found


def describe(result: dict[str, Any]) -> tuple[Any, ...]:
    """Return what tells results apart."""
    return tuple(result[field] for field in ("path", "line", "key_path", "label", "result"))


def test_json_of_check(place: Place) -> None:
    """It says what the text says, with the same status."""
    fill(place)
    words = [CHECK, *place.by_id("prod", "prod"), *place.by_file("old"), "--label", "prod", "--label", "no", "."]
    done, found = place.run(*words), place.run(*words, "--json")
    results, text = read(found), done.stdout + done.stderr
    assert done.returncode == found.returncode == 1
    assert all(each["message"] in text for each in results), "with the same messages"
    line = 1 + INNER[: INNER.index(b"b.c")].count(b"\n")
    assert [describe(each) for each in results] == [
        ("./a.yml", 3, "x[0].y", "default", "other label"),
        ("./b.yml", None, None, "prod", "decrypted"),
        ("./b.yml", 2, None, "prod", "decrypted"),
        ("./b.yml", line + 1, None, "dev", "other label"),
        ("./c.yml", 2, "secret", "new", "other label"),
        ("./c.yml", DAMAGED_LINE, "twice", "old", "other label"),
        ("./d.md", 4, None, "old", "other label"),
        ("./out.yml", None, None, None, "skipped"),
        ("./folder", None, None, None, "skipped"),
        (None, None, None, "no", "failed"),
    ]
    assert [each["within"] for each in results[1:4]] == [None, NOWHERE, NOWHERE]


DAMAGED_LINE = block("new", label="new").count(b"\n") + 2


def test_json_of_rotate(place: Place) -> None:
    """What could not be written is not rotated."""
    fill(place)
    place.put("g.yml", sealed("prod", label="prod"))
    os.link(place.tree / "g.yml", place.tree / "h.yml")
    prod, new = place.by_id("prod", "prod"), place.by_id("prod", "prod2", "new-")
    words = [ROTATE, *prod, *new, "--json", "."]
    before = place.files()
    dry = place.run(*words, "--dry-run")
    assert place.files() == before
    runs = [dry, place.run(*words), place.run(*words)]
    results = [[describe(each) for each in read(run) if each["path"] != "./a.yml"] for run in runs]
    for what, of_run in zip(("to be rotated", "rotated", "kept"), results):
        assert of_run[:3] == [
            ("./b.yml", 2, None, "prod", what),
            ("./b.yml", results[0][1][1], None, "dev", "other label"),
            ("./b.yml", None, None, "prod", what),
        ]
        failed = [path for path, *_, result in of_run if result == "failed"]
        assert failed == ["./g.yml", "./h.yml"], of_run
        assert not any(path in failed and result != "failed" for path, *_, result in of_run)
    assert [run.returncode for run in runs] == [1, 1, 1]


def test_lists(place: Place) -> None:
    """No password is asked for, no script is run, and nothing is decrypted."""
    fill(place)
    place.put("ansible.cfg", b"[defaults]\nvault_identity_list = prod@./script\nask_vault_pass = yes\n")
    place.put("script", b"#!/bin/sh\ntouch ../started\n", 0o755)
    place.wrap_tool('[ "$1" = --version ] || touch ../started')
    done = place.run(CHECK, "--list", ".")
    wanted = ["./a.yml:3: y: default", "./b.yml: prod", "./c.yml:2: secret: new", f"./c.yml:{DAMAGED_LINE}: twice: old"]
    assert done.stdout.splitlines() == [*wanted, "./d.md:4: old", "5 listed, 0 failed"], done
    assert done.returncode == 0 and not (place.path / "started").exists()
    done = place.run(CHECK, "--list", "--label", "old", ".")
    others = "2 listed, 0 failed, 3 with other labels (default 1, new 1, prod 1)"
    ended("one label", done, 0, f"./c.yml:{DAMAGED_LINE}: twice: old\n", others)
    listed = [(each["path"], each["label"]) for each in read(place.run(CHECK, "--list", "--json", "."))]
    assert listed[:4] == [("./a.yml", "default"), ("./b.yml", "prod"), ("./c.yml", "new"), ("./c.yml", "old")]
    place.put(".gitattributes", b"plain.yml ansible-vault\n")
    assert place.run("git", "init", "-q").returncode == 0
    ended("what is marked", place.run(CHECK, "--list", "."), 1, "./plain.yml: is not encrypted\n")
    for words in (place.by_file("old"), ["--any-label"], ["-J"]):
        ended("a password", place.run(CHECK, "--list", *words, "."), 2, "leave out the options for passwords")


# A value in the plaintext of a value, which is in the plaintext of a vault.
OF_VALUE = b"y: 2\n" + block("old", name="c")
OF_VAULT = b"x: 1\n" + block("old", OF_VALUE, name="b")


def test_places_within(place: Place) -> None:
    """Each place names that of the vault or value around it, however deep it is. The names of keys in a plaintext are
    secret."""
    place.put("a.yml", sealed("old", OF_VAULT))
    of_b = {"line": 3, "key_path": None, "within": NOWHERE}
    of_c = {"line": 3, "key_path": None, "within": of_b}
    for words in ([CHECK, *place.by_file("old")], [ROTATE, *to_new(place), "--dry-run"]):
        found = read(place.run(*words, "--json", "a.yml"))
        places = [{field: each[field] for field in NOWHERE} for each in found]
        assert sorted(places, key=str) == sorted([NOWHERE, of_b, of_c], key=str), words[0]
    told = "a.yml: default: in its plaintext, line 3: default: in its plaintext, line 3: default: decrypted by"
    ended("the text", place.run(CHECK, *place.by_file("old"), "a.yml"), 0, told)


def test_damaged_first_lines(place: Place) -> None:
    """A first line that is damaged has no label, also not the one of a first line that has none."""
    place.put("a.yml", b"$ANSIBLE_VAULT;1.1\n6162\n")
    place.put("b.yml", b"k: !vault |\n  $ANSIBLE_VAULT;1.1\n  6162\n")
    for words in ([CHECK, *place.by_file("old")], [CHECK, "--list"], [ROTATE, *to_new(place)]):
        found = read(place.run(*words, "--json", "a.yml", "b.yml"))
        assert [each["label"] for each in found if each["path"]] == [None, None], words[:2]
    listed = place.run(CHECK, "--list", "a.yml", "b.yml").stdout
    assert listed == "a.yml: no label\nb.yml:2: k: no label\n2 listed, 0 failed\n"


def test_missing_labels(place: Place) -> None:
    """Each of several labels that nothing has is named and counted, in their order, and each of the others counts."""
    for label in ("b", "c", "x"):
        place.put(f"{label}.yml", sealed("old", label=label))
    check = [CHECK, *place.by_file("old"), *(f"--label={label}" for label in "dbca")]
    rotate = [ROTATE, *place.by_file("old"), *(f"--new-vault-id={label}@../secrets/new" for label in "dbca")]
    runs = {
        "2 decrypted, 2 failed, 1 with other labels (x 1)\n": check,
        "2 listed, 2 failed, 1 with other labels (x 1)\n": [CHECK, "--list", *check[3:]],
        summary(2, others=1, named=" (x 1)", failed=2): rotate,
    }
    for counts, words in runs.items():
        done = place.run(*words, ".")
        ended(words[0], done, 1, counts)
        missing = re.findall(r"no vault or value has the label (\w)", done.stderr)
        assert missing == ["a", "d"], done.stderr
        assert len(done.stderr.splitlines()) == 2, "nothing else is named"


def test_new_label_that_nothing_has(place: Place) -> None:
    """With --any-label, too, the new label has to be that of something in the end."""
    place.put("a.yml", sealed("dev", label="x"))
    words = ["--any-label", *place.by_file("old"), "--new-vault-id=new@../secrets/new", "a.yml"]
    why = "no vault or value has the label new, and no old password decrypts what has another one\n"
    ended("it", place.run(ROTATE, *words), 1, why)


# Files that are broken, and what is said of each.
BROKEN = {
    "no YAML": (block("old") + b"[\n", "it cannot be read as YAML: "),
    "YAML with a null character": (block("old") + b"\0", "it cannot be read as YAML: "),
    "markers": (b"<<<<<<< a\na: 1\n=======\na: 2\n>>>>>>> b\n" + block("old"), "has git's conflict markers; "),
}


@pytest.mark.parametrize("content, why", BROKEN.values(), ids=BROKEN)
def test_lists_of_broken_files(place: Place, content: bytes, why: str) -> None:
    """A list fails where a check does, without any password."""
    place.put("a.yml", content)
    for words in ([CHECK, *place.by_file("old")], [CHECK, "--list"]):
        done = place.run(*words, "a.yml")
        ended(words[1], done, 1, f"{CHECK}: a.yml: ", why)
        results = {each["result"]: each for each in read(place.run(*words, "--json", "a.yml"))}
        assert why in results["failed"]["message"], "as JSON"
        assert (results["failed"]["line"], results["failed"]["label"]) == (None, None), "it is the file that fails"


@pytest.mark.parametrize("name", [*AWKWARD, os.fsdecode(b"\xff.yml")])
def test_names(place: Place, name: str) -> None:
    """Each name comes back."""
    place.put(name, block("prod", name='"\\e[2J"'))
    found = read(place.run(CHECK, "--json", *place.by_file("prod"), "."))
    assert [(each["path"], each["key_path"], each["result"]) for each in found] == [
        (f"./{name}", '"\x1b[2J"', "decrypted")
    ]

"""Pointers of git-lfs in place of files: each companion names one as what it is, and git's filters put files there."""

import re

from companion_cases import CHECK, CONFLICT, EDIT, MERGE, NOT_DECRYPTED, ROTATE, TEXTCONV, WITH, Place
from companion_cases import block, check_answer, ended, first_line, line_of_values, sealed, summary, to_new, versions
from companion_cases.repository import add_and_commit, under_git
from lib.needs import needs

POINTER = b"version https://git-lfs.github.com/spec/v1\noid sha256:61\nsize 5\n"
NAMED = "it is a pointer of git-lfs, which says nothing about the file; `git lfs pull` gets the file"
# Filters like those of git-lfs. What they store is in a directory.
CLEAN = """\
cat > ../stored/new
sum=$(sha256sum < ../stored/new | cut -d ' ' -f 1)
mv ../stored/new "../stored/$sum"
printf 'version https://git-lfs.github.com/spec/v1\\noid sha256:%s\\nsize 1\\n' "$sum"
"""
SMUDGE = "exec cat \"../stored/$(sed -n 's/^oid sha256://p')\""


def test_each_companion(place: Place) -> None:
    """It changes none, and starts no editor. The check fails only if one is marked."""
    needs("git")
    under_git(place, "big.vault.yml ansible-vault\n")
    place.put("image.png", POINTER)
    place.put("a.yml", sealed("old"))
    old = place.by_file("old")
    done = place.run(CHECK, *old, ".")
    check_answer("the check", done, output=None, errors=f"{CHECK}: ./image.png: {NAMED}\n")
    done = place.run(ROTATE, *to_new(place), ".")
    check_answer("the rotation", done, output=None, errors=f"{ROTATE}: ./image.png: {NAMED}\n")
    place.put("big.vault.yml", POINTER)
    ended("a marked one", place.run(CHECK, *place.by_file("new"), "."), 1, f"./big.vault.yml: {NAMED}\n", "1 failed")
    ended("none is rotated", place.run(ROTATE, *to_new(place), "big.vault.yml"), 1, NAMED, summary(0, failed=1))
    place.put("big.vault.yml", POINTER)
    shown = place.run(TEXTCONV, *old, "big.vault.yml")
    told = f"{TEXTCONV}: big.vault.yml: shown as it is: {NAMED}\n"
    check_answer("textconv", shown, output=NOT_DECRYPTED + POINTER.decode(), errors=told)
    runs = [[TEXTCONV, *old, "--value", "x"], [EDIT, *old], [EDIT, *old, "--value", "x"], [WITH, "view", *old]]
    for command, passwords in (("encrypt", old), ("decrypt", old), ("rekey", to_new(place))):
        runs += [[WITH, command, *passwords], [WITH, command, *passwords, "--output", "out.yml"]]
    for words in runs:
        ended("refused", place.run(*words, "big.vault.yml", EDITOR="touch started"), 1, f"big.vault.yml: {NAMED}\n")
    assert place.get("big.vault.yml") == POINTER
    assert {"started", "out.yml"}.isdisjoint(place.names())
    texts = [sealed("old", text) for text in (b"base", b"ours", b"theirs")]
    merges = [[POINTER, POINTER + b"a", POINTER + b"b"]]
    merges += [[POINTER if each == pointer else each for each in texts] for pointer in texts]
    for contents in merges:
        merged = place.run(MERGE, *old, *versions(place, "m.yml", *contents))
        ended("a merge", merged, CONFLICT, f"not merged, so both sides are whole in the file: {NAMED}")


def test_filters(place: Place) -> None:
    """git diff shows plaintext, since git gives textconv the file, not its pointer."""
    needs("git")
    (place.path / "stored").mkdir()
    for name, text in (("clean", CLEAN), ("smudge", SMUDGE)):
        place.script(text, f"tools/{name}")
    under_git(place, "*.vault.yml filter=lfs diff=ansible-vault -text\n")
    settings = {"filter.lfs.clean": "clean", "filter.lfs.smudge": "smudge"}
    settings["diff.ansible-vault.textconv"] = " ".join([TEXTCONV, *place.by_file("old")])
    for name, value in settings.items():
        place.run("git", "config", name, value)
    for content in (sealed("old", b"first: 1\n"), sealed("old", b"second: 2\n"), block("old", b"third", name="x")):
        place.put("a.vault.yml", content)
        add_and_commit(place)
    assert place.run("git", "show", "HEAD:a.vault.yml").stdout.startswith(
        "version https://git-lfs.github.com/spec/v1\n"
    )
    done = place.run("git", "log", "-p", "--format=", "-2")
    changed = re.findall("^[-+]([a-z#].*)", done.stdout, re.MULTILINE)
    whole, some = first_line().rstrip(), line_of_values(1).rstrip()
    assert changed == [whole, "second: 2", some, "x: !vault |-", "first: 1", "second: 2"], done
    ended("the check", place.run(CHECK, *place.by_file("old"), "."), 0, "1 decrypted, 0 failed\n")

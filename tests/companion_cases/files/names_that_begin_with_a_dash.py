"""Files whose names begin with a dash, as a stranger may have committed them: none is taken for an option."""

import re
import shlex
import shutil

import pytest
from hypothesis import HealthCheck, given, settings
from hypothesis import strategies as st

from companion_cases import AWKWARD, CHECK, EDIT, HOOK, MERGE, ROTATE, TEXT, TEXTCONV, WITH, Companions, Place
from companion_cases import decrypted, ended, first_line, sealed, silent, versions

OLD, NEW = "--vault-password-file ../secrets/old", "--new-vault-password-file ../secrets/new"
# Command lines in which a pattern of the shell gives the names of the files.
LINES = {
    EDIT: f"{EDIT} {OLD} *",
    ROTATE: f"{ROTATE} {OLD} {NEW} *",
    MERGE: f"{MERGE} {OLD} * a.yml",
    CHECK: f"{CHECK} {OLD} *",
    TEXTCONV: f"{TEXTCONV} {OLD} * a.yml",
    HOOK: f"{HOOK} *",
    "rekey": f"{WITH} rekey {OLD} *",
    "decrypt": f"{WITH} decrypt {OLD} *",
    "encrypt_string": f"{WITH} encrypt_string {OLD} *",
    "before a command": f"{WITH} * view",
}
# No byte that a name cannot have, and one that a message escapes.
ANY = st.text(st.characters(blacklist_characters="/\0", blacklist_categories=["Cs"]), max_size=20)


def options(place: Place, name: str) -> list[str]:
    """Return the options of a companion, with those of a command of the alias."""
    words = (
        [WITH, name, "--help"] if name in ("rekey", "decrypt", "encrypt_string") else [LINES[name].split()[0], "--help"]
    )
    return re.findall(r"(?<![\w-])--?[A-Za-z][\w-]*", place.run(*words).stdout)


@pytest.mark.parametrize("name", LINES)
def test_names(cases: Companions, name: str) -> None:
    """Whatever follows the dash, such a file is no option, and the message says what to write."""
    place = cases.place()
    given_options = sorted({*options(place, name)})
    assert {"--help", "-V"} <= {*given_options}
    words = st.sampled_from(given_options)
    likely = words | st.builds("{}={}".format, words, ANY) | words.map(lambda word: word[:-2])
    awkward = st.sampled_from([each for each in AWKWARD if each.startswith("-")])
    files = st.one_of(likely, likely, ANY.map("-{}".format), awkward)

    @settings(max_examples=15, deadline=None, database=None, suppress_health_check=[*HealthCheck])
    @given(files.filter(lambda file: file not in ("", "-") and len(file.encode()) < 256))
    def check(file: str) -> None:
        shutil.rmtree(place.tree)
        place.tree.mkdir()
        for each in ("a.yml", file):
            place.put(each, sealed("old"))
        before = place.files()
        done = place.shell(LINES[name])
        assert (done.returncode, done.stdout, place.files()) == (2, "", before), (file, done)
        assert ": a file has this name; write " in done.stderr and "./-" in done.stderr, (file, done.stderr)

    check()


@pytest.mark.parametrize("name", LINES)
def test_separator(place: Place, name: str) -> None:
    """A file with the name of the separator is not skipped without a word."""
    for each in ("a.yml", "--"):
        place.put(each, sealed("old"))
    before = place.files()
    done = place.shell(LINES[name])
    assert (done.returncode, done.stdout, place.files()) == (2, "", before), done
    assert "--: a file has this name; write ./-- for" in done.stderr


def test_beside_a_separator(place: Place) -> None:
    """Such a file keeps nobody from the others, nor from itself."""
    for each in ("a.yml", "--"):
        place.put(each, sealed("old"))
    edit = f"EDITOR=true {WITH} edit {OLD}"
    lines = [
        f"EDITOR=true {EDIT} {OLD} a.yml",
        f"{edit} a.yml",
        f"{edit} ./--",
        f"{TEXTCONV} {OLD} a.yml",
        f"{TEXTCONV} {OLD} --",
    ]
    for line in lines:
        done = place.shell(f"{line}; exit $?")
        assert done.returncode == 0, (line, done)
    (place.tree / "--").unlink()
    place.put("-x.yml", sealed("old"))
    assert place.shell(f"{edit} -- -x.yml; exit $?").returncode == 0, "the alias names the file to the editor's program"


def test_standard_input(place: Place) -> None:
    """A dash alone is standard input, even where a file has this name."""
    place.put("-", sealed("new"))
    place.put("a.yml", sealed("old"))
    shown = place.shell(f"{WITH} view {OLD} - < a.yml")
    assert (shown.returncode, shown.stdout, shown.stderr) == (0, TEXT.decode(), "")
    shown = place.shell(f"{TEXTCONV} --vault-password-file ../secrets/new -- -; {WITH} view {OLD} ./-")
    assert shown.stdout == first_line() + TEXT.decode(), "the file, by its path"


def test_strangers_password(place: Place) -> None:
    """A committed name chooses no password, and runs no script."""
    place.put("a.yml", sealed("old"))
    place.put("evil.pass", b"evil\n")
    place.put(".evil", b"#!/bin/sh\necho run > ../run\n", 0o755)
    for file in ("--new-vault-password-file=evil.pass", "--vault-password-file=.evil"):
        # A link to nothing is among the names, too.
        (place.tree / file).symlink_to("nowhere")
        for line in (f"{WITH} rekey {OLD} *", f"{ROTATE} {OLD} *", f"{TEXTCONV} {OLD} * a.yml", f"{CHECK} *"):
            done = place.shell(f"{line}; exit $?")
            assert done.returncode == 2 and f"write {shlex.quote('./' + file)} for" in done.stderr, (line, done)
        (place.tree / file).unlink()
    assert decrypted("old", place.get("a.yml")) == TEXT and not (place.path / "run").exists()


def test_files_that_are_meant(place: Place) -> None:
    """Behind `--`, with `./`, and as the last argument that git gives, such a name is that of the file."""
    for file in ("--help", "-x.yml", "--vault-id"):
        place.put(file, sealed("old"))
        shown = place.shell(f"{WITH} view {OLD} -- {file}; {WITH} view {OLD} ./{file}; {TEXTCONV} {OLD} {file}")
        assert (shown.stdout, shown.stderr) == (2 * TEXT.decode() + first_line() + TEXT.decode(), ""), file
        words = versions(place, file, sealed("old"), sealed("old"), sealed("old", b"theirs\n"))
        merged = [MERGE, *OLD.split(), words[0], f"./{file}", words[2], file]
        silent(file, place.run(*merged))
        assert decrypted("old", place.get(file)) == b"theirs\n"
        (place.tree / file).unlink()


def test_git(place: Place, git: None) -> None:
    """A stranger's file with the name of an option that --install has written changes nothing: each is one word."""
    place.shell("git init -q && git config user.name a && git config user.email b")
    place.put(".gitattributes", b"*.yml diff=ansible-vault merge=ansible-vault\n")
    place.put("a.yml", sealed("old", b"one\n\n\n"))
    place.shell(f"{HOOK} --install --vault-password-file {place.secret('old')} > ../said")
    place.shell("git add . && git commit -qm one && git checkout -qb other")
    place.put("a.yml", sealed("old", b"one\n\n\ntheirs\n"))
    place.put("--vault-password-file", b"")
    place.shell("git add . && git commit -qm two && git checkout -q -")
    place.put("a.yml", sealed("old", b"ours\n\n\n"))
    place.shell("git commit -qam three")
    ended("a merge", place.shell("git merge other"), 0)
    assert (place.tree / "--vault-password-file").exists()
    assert decrypted("old", place.get("a.yml")) == b"ours\n\n\ntheirs\n"
    ended("a diff", place.shell("git diff HEAD~1"), 0, "+theirs\n")

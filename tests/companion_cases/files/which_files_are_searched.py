"""The files that both ansible-vault-rotate and ansible-vault-check find below a path, and those that they leave out."""

import os
from itertools import product
from pathlib import Path

import pytest

from ansible_vault_companions.envelopes import detection
from ansible_vault_companions.files import reading
from companion_cases import AWKWARD, CHECK, ROTATE, TEXT, Place, block, check_answer, ended, sealed, summary, to_new


def found(place: Place, *paths: str) -> list[str]:
    """Return the places that ansible-vault-check names."""
    done = place.run(CHECK, *place.by_file("old"), *paths)
    return sorted(line.split(": ")[0] for line in done.stdout.splitlines()[:-1])


def test_awkward_names(place: Place) -> None:
    names = [*AWKWARD, "c1 \x9b31m.yml", os.fsdecode(b"not utf-8 \xff.yml")]
    for name in names:
        place.put(name, sealed("old"))
        place.put(f"folder {name}/vars", block("old"))
    lines = ["'./a\\nline.yml': rotated\n", "'./c1 \\x9b31m.yml': rotated\n", "./-rf.yml: rotated\n"]
    lines.append(summary(2 * len(names)))
    ended("awkward names", place.run(ROTATE, *to_new(place), "."), 0, *lines)
    assert len(place.files()) == 2 * len(names), "nothing else is there"
    done = place.run(ROTATE, *place.by_file("new"), *place.by_file("old", "new-"), "--", *AWKWARD)
    ended("named one by one", done, 0, summary(len(AWKWARD)))


LINKS = {
    "inside.yml": "all.yml",
    "outside.yml": "../shared/vault.yml",
    "chain.yml": "outside.yml",
    "sibling.yml": "../tree-old/vault.yml",
    "plain.yml": "../shared/plain.yml",
    "folder": "../elsewhere",
    "deep/above": "..",
    "dangling.yml": "nowhere",
    "dangling-out.yml": "../nowhere",
    "loop.yml": "loop.yml",
}


def link_files(place: Place, is_repository: bool) -> None:
    """Make these links in a directory of vaults, which is a repository or not."""
    for name in ("tree/all.yml", "tree/deep/b.yml", "shared/vault.yml", "elsewhere/deep.yml", "tree-old/vault.yml"):
        place.put(name, sealed("old"))
    place.put("shared/plain.yml", TEXT)
    if is_repository:
        place.shell("git init -q tree")
    for name, target in LINKS.items():
        (place.tree / "tree" / name).symlink_to(target)


def list_messages(place: Place) -> dict[str, str]:
    """Return what is said of the links that are not followed."""
    told = {}
    for name, target in (("chain", "shared/vault"), ("sibling", "tree-old/vault"), ("plain", "shared/plain")):
        told[f"{name}.yml"] = f"a link leads out of {place.tree}/tree; name {place.tree}/{target}.yml instead"
    told["folder"] = f"it is a link to a directory, which is not searched; name {place.tree}/elsewhere as well"
    return told


@pytest.mark.usefixtures("git")
@pytest.mark.parametrize("is_repository", (True, False))
def test_links(place: Place, is_repository: bool) -> None:
    """A link to a file is followed within the repository or, outside of git, within the paths, and so not into a
    directory whose name begins with the one that was named. Any other is named, and fails if there is an envelope in
    its file. A link to a directory is not followed. Each file is named once."""
    link_files(place, is_repository)
    told, before = list_messages(place), place.files()
    done = place.run(CHECK, *place.by_file("old"), "tree", "tree/all.yml")
    wanted = sorted(f"{CHECK}: tree/{name}: {why}" for name, why in told.items())
    assert done.returncode == 1, "what is behind two links counts as failed"
    assert sorted(done.stderr.splitlines()) == wanted, "each link out is named"
    shown = [line.partition(": ")[0] for line in done.stdout.splitlines()]
    assert shown == ["tree/all.yml", "tree/deep/b.yml", "2 decrypted, 2 failed"], "each file is named once"
    done = place.run(ROTATE, *to_new(place), "tree")
    ended("links out", done, 1, f"tree/chain.yml: {told['chain.yml']}\n", "2 rotated, 0 already under", "2 failed")
    changed = {name for name, content in place.files().items() if content != before[name]}
    assert changed == {"tree/all.yml", "tree/deep/b.yml", "tree/inside.yml"}
    assert {name: os.readlink(place.tree / "tree" / name) for name in LINKS} == LINKS, "links stay links"


@pytest.mark.usefixtures("git")
@pytest.mark.parametrize("is_repository", (True, False))
def test_messages_on_links(place: Place, is_repository: bool) -> None:
    """Whoever leaves out the links, or names their targets as well, gets no message."""
    link_files(place, is_repository)
    left_out = [f"--exclude={name}" for name in (*list_messages(place), "outside.yml")]
    done = place.run(CHECK, *place.by_file("old"), *left_out, "tree")
    check_answer("a check without the links", done, output=None)
    shared = f"{place.tree}/shared/vault.yml"
    targets = [shared, "tree-old", "shared/plain.yml", f"{place.tree}/elsewhere"]
    done = place.run(ROTATE, *to_new(place), "tree", *targets)
    ended("their files are rotated", done, 0, f"tree/chain.yml ({shared}): rotated\n", summary(5))
    assert done.stderr == ""


@pytest.mark.usefixtures("git")
def test_paths_that_are_links(place: Place) -> None:
    """A link to a directory is followed if it is a path, but not out of a repository."""
    place.put("elsewhere/below/deep.yml", sealed("old"))
    (place.tree / "tree").mkdir()
    (place.tree / "tree/folder").symlink_to("../elsewhere")
    rotate = [ROTATE, *to_new(place)]
    ended("outside of git", place.run(*rotate, "tree/folder"), 0, "tree/folder/below/deep.yml: rotated\n", summary(1))
    place.shell("git init -q tree")
    check = [CHECK, *place.by_file("new")]
    for name in ("folder", "folder/below"):
        path = f"{place.tree}/elsewhere{name.removeprefix('folder')}"
        why = f"tree/{name}: a link leads out of {place.tree}/tree; name {path} instead\n"
        done = place.run(*check, f"tree/{name}")
        check_answer(f"a path through {name}", done, 1, "0 decrypted, 1 failed\n", f"{CHECK}: {why}")
        done = place.run(*check, f"--exclude=tree/{name}", f"tree/{name}", path)
        check_answer("it is left out, and its target is a path", done, output=None)
    place.shell("mv tree/.git .git")
    done = place.run(*check, "tree/folder")
    ended("within the repository", done, 0, "tree/folder/below/deep.yml: ", "1 decrypted, 0 failed\n")


def test_what_is_looked_at(place: Place) -> None:
    vaults = ["vault", ".hidden/vault.yml", "host_vars/www.example.org", "notes.md"]
    blocks = ["vars.yaml", "host_vars/db.example.org", "a.json", "b.YML", ".github/x.yml", "prose.md", "prose.RST"]
    place.shell("git init -q")
    for name in [*vaults, ".git/vault.yml", "sub/.git/vault.yml"]:
        place.put(name, sealed("old"))
    for name in blocks:
        place.put(name, block("old"))
    place.put("script.sh", b"#!/bin/sh\ngrep -q '^$ANSIBLE_VAULT;1.1;AES256' file\n")
    place.put("picture.png", bytes(range(256)) * 5000)
    os.mkfifo(place.tree / "pipe")
    leftover = ".ansible-vault-0_abcxyz.new"
    for name in (leftover, f"host_vars/{leftover}"):
        place.put(name, sealed("old"))
    others = [f"x{leftover}", f"{leftover}x", ".ansible-vault-0abcxyz.new"]
    for name in others:
        place.put(name, sealed("old"))
    vaults += others
    # Only a regular file is one that a companion left.
    vaults.append(".ansible-vault-abcdefgh.new/vault.yml")
    place.put(vaults[-1], sealed("old"))
    wanted = [*vaults, *(f"{name}:2" for name in blocks)]
    assert found(place, ".") == sorted(f"./{name}" for name in wanted)
    assert found(place, leftover) == [leftover], "a path that is given"
    ended("a rotation", place.run(ROTATE, *to_new(place), "."), 0, summary(len(wanted)))
    assert place.get(leftover) == sealed("old"), "it is for the user to look at"


def test_null_characters(place: Place) -> None:
    """A file with one, in which an envelope is not looked for, is named if it mentions one, and so is a plaintext."""
    place.put("a.yml", sealed("old", b"\0" + block("old")))
    content = block("old")
    for place_of_null in (0, len(content) // 2, len(content)):
        place.put(f"{place_of_null:04}.bin", content[:place_of_null] + b"\0" + content[place_of_null:])
    place.put("header.bin", b"\0$ANSIBLE_VAULT;1.1;AES256\n")
    place.put("image.png", b"\0")
    before = place.files()
    why = "mentions an envelope but is not searched, because it contains a null character"
    names = [name for name in sorted(before) if name[0] in "01"]
    for words, told in (([CHECK, *place.by_file("old")], "a.yml: default"), ([ROTATE, *to_new(place)], "a.yml")):
        done = place.run(*words, ".")
        assert done.returncode == 0
        lines = [f"{words[0]}: ./{name}: it {why}" for name in names]
        assert done.stderr.splitlines() == [*lines, f"{words[0]}: ./{told}: its plaintext {why}"], words[0]
    assert {name: place.get(name) for name in names} == {name: before[name] for name in names}


def test_pieces(tmp_path: Path, monkeypatch: pytest.MonkeyPatch) -> None:
    """A long file is searched in pieces, and what tells of an envelope may be split between two of them."""
    path = tmp_path / "a.txt"
    for size, before, start in product((80, 90), range(100, 200), detection.WORDS):
        monkeypatch.setattr(reading, "CHUNK_SIZE", size)
        path.write_bytes(b"x" * before + start + b";1.1")
        assert detection.read_envelope_file(str(path)) == path.read_bytes(), (size, before, start)
        path.write_bytes(b"x" * before + start[:-1])
        assert detection.read_envelope_file(str(path)) == b"x" * size, "a part of it is none"


FILES = {"a.yml", "b.txt", "tests/a.yml", "tests/fixtures/c.yml", "roles/tests/d.yml", "[x]/e.yml"}
# The patterns of files to leave out, and these files.
PATTERNS: dict[tuple[str, ...], set[str]] = {
    ("a.yml",): {"a.yml", "tests/a.yml"},
    ("tests/",): {"tests/a.yml", "tests/fixtures/c.yml", "roles/tests/d.yml"},
    ("./tests/fixtures",): {"tests/fixtures/c.yml"},
    ("./a.yml", "./b.txt/"): {"a.yml", "b.txt"},
    ("roles/*", "b.?xt"): {"roles/tests/d.yml", "b.txt"},
    ("A.yml", "fixture", "est", ".", "..", ".*", "", "./", "t/*"): set(),
}


@pytest.mark.parametrize("patterns, left_out", PATTERNS.items())
def test_excluded(place: Place, patterns: tuple[str, ...], left_out: set[str]) -> None:
    """Files are left out below each spelling of a directory, and even if what they are in is given as a PATH. A pattern
    with a slash matches paths as they are spelled."""
    for name in FILES:
        place.put(name, sealed("old"))
    for folder, paths in {
        "": ["."],
        "./": sorted(os.listdir(place.tree)),
        f"{place.tree}/": [str(place.tree)],
        f"../{place.tree.name}/": [f"../{place.tree.name}/"],
    }.items():
        # What ends with a slash has the name before it.
        with_slash = [pattern for pattern in patterns if "/" in pattern.rstrip("/")]
        words = [f"--exclude={folder if pattern in with_slash else ''}{pattern}" for pattern in patterns]
        names = {os.path.relpath(place.tree / each, place.tree) for each in found(place, *words, *paths)}
        assert names == FILES - left_out, paths
        lines = place.run(ROTATE, *to_new(place), "--dry-run", *words, *paths).stdout.splitlines()[:-1]
        names = {os.path.relpath(place.tree / line.partition(": ")[0], place.tree) for line in lines}
        assert names == FILES - left_out, f"a rotation of {paths}"
    assert found(place, "--exclude=tests/*", "--exclude=b.txt", "b.txt", "tests/a.yml", "a.yml") == ["a.yml"]
    assert len(found(place, "--exclude=.*", "./")) == len(FILES), "this directory has no name"

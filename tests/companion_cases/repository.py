"""Helpers for a tree under git."""

import hashlib
import subprocess
from collections.abc import Mapping
from pathlib import Path

from ansible_vault_companions.git.attributes import read_attributes
from ansible_vault_companions.git.changes import list_staged
from ansible_vault_companions.git.contents import Contents
from ansible_vault_companions.guard.evidence import Evidence, Known
from ansible_vault_companions.guard.rules import check_files
from companion_cases import HOOK, MERGE, Done, Place
from model.vaults import SALT, serialized

# Three versions of a text, and their merge.
BASE = b"one: 1\n2: 2\n3: 3\nfour: 4\n"
OURS, THEIRS = BASE.replace(b"one: 1", b"one: I"), BASE.replace(b"four: 4", b"four: IV")
BOTH = OURS.replace(b"four: 4", b"four: IV")
# With each, a text has another envelope.
SALTS = [SALT, SALT[::-1], SALT[1:] + b"s"]
AUTHOR = {f"GIT_{who}_{what}": "a@b" for who in ("AUTHOR", "COMMITTER") for what in ("NAME", "EMAIL")}
WHOLE = "is not encrypted, but was a vault in HEAD"
IN_PART = "has {} in plaintext, which was encrypted in HEAD"
GONE = "is not encrypted, and is as long as the text of the vault {}"


def under_git(place: Place, attributes: str) -> None:
    place.environment.update(AUTHOR)
    place.shell("git init -q")
    place.put(".gitattributes", attributes.encode())


def with_hooks(place: Place, attributes: str = "") -> None:
    under_git(place, attributes)
    done = place.shell(f"{HOOK} --install")
    assert done.returncode == 0, done.stderr


def add_and_commit(place: Place) -> Done:
    return place.shell("git add -A; git commit -qm change")


def committed(place: Place, name: str, content: bytes) -> str:
    """Commit this content, whatever a hook says, and return the first digits of the commit."""
    place.put(name, content)
    place.shell("git add -A && git commit -qm change --no-verify")
    return place.shell("git rev-parse HEAD").stdout[:10]


def staged(place: Place, files: dict[str, bytes]) -> list[str]:
    """Stage these files, and return what the hook says."""
    for name, content in files.items():
        place.put(name, content)
    return told(place.shell(f"git add -A && {HOOK}"))


def stage_alone(folder: Path, files: Mapping[str, bytes]) -> None:
    """Stage these files and no others in the repository that is the current directory."""
    subprocess.run(["git", "rm", "-rfq", "--ignore-unmatch", "."], check=True)
    for name, content in files.items():
        (folder / name).parent.mkdir(parents=True, exist_ok=True)
        (folder / name).write_bytes(content)
    subprocess.run(["git", "add", "-A"], check=True)


def make_envelope(number: int) -> bytes:
    """Return an envelope, another one for each number. Its form is right, whatever its plaintext."""
    salt, tag, ciphertext = (hashlib.sha256(b"%d %d" % (number, part)).digest() for part in range(3))
    return serialized(salt, tag, ciphertext)


def find_refused_files() -> set[str]:
    """Return what is staged here and refused, as the hook does, but without a process of its own."""
    staged = list_staged()
    attributes, _ = read_attributes({file.name for changes in staged for file in changes.files}, "")
    with Contents() as contents:
        known = Known(contents)
        refused = [check_files(Evidence(changes, known, attributes)) for changes in staged]
        return {file.name.decode() for findings in refused for file, _ in findings}


def told(done: Done) -> list[str]:
    """Return what the hook says of the files that it refuses, without the advice below."""
    assert done.returncode == (1 if done.stderr else 0), done
    return [line.removeprefix(f"{HOOK}: ") for line in done.stderr.splitlines() if line.startswith(f"{HOOK}: ")]


def fork(place: Place, base: dict[str, bytes], ours: dict[str, bytes], theirs: dict[str, bytes]) -> None:
    """Commit the base, then theirs on a branch of this name, and ours on the first branch."""
    for files, command in ((base, "true"), (theirs, "git checkout -qb theirs"), (ours, "git checkout -q -")):
        place.shell(command)
        for name, content in files.items():
            place.put(name, content)
        add_and_commit(place)


def set_driver(place: Place, *secrets: str) -> None:
    place.run("git", "config", "merge.ansible-vault.driver", f"{MERGE} {' '.join(secrets)} %O %A %B %L %P")


def repository(folder: Path, style: str) -> Path:
    """Make a repository with this style of conflicts, and return its directory."""
    for words in (["init", "-q", str(folder)], ["-C", str(folder), "config", "merge.conflictStyle", style]):
        subprocess.run(["git", *words], check=True)
    return folder


def by_git(folder: Path, contents: list[bytes]) -> tuple[bytes, int]:
    """Merge base, ours and theirs with git. Return the result and the number of conflicts."""
    for name, content in zip(("base", "ours", "theirs"), contents):
        (folder / name).write_bytes(content)
    words = ["-L", "ours", "-L", "base", "-L", "theirs", "ours", "base", "theirs"]
    done = subprocess.run(["git", "merge-file", "-p", *words], cwd=folder, capture_output=True)
    return done.stdout, done.returncode

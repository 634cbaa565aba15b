"""Password files in a working tree. Whoever commits the name of an ignored one replaces it, and git does not say so."""

import os
from typing import NamedTuple

import pytest

from companion_cases import CHANGE, CHECK, EDIT, HOOK, MERGE, NOBODY, PASSWORDS, ROTATE, TEXT, TEXTCONV, WITH, Place
from companion_cases import block, decrypted, ended, sealed, silent, summary, versions
from companion_cases.repository import BASE, OURS, THEIRS, add_and_commit, fork, under_git
from lib.needs import needs_root

pytestmark = pytest.mark.usefixtures("git")

FILE, LIST = "ANSIBLE_VAULT_PASSWORD_FILE", "ANSIBLE_VAULT_IDENTITY_LIST"
ATTRIBUTES = "*.vault.yml diff=ansible-vault merge=ansible-vault\n"
SCRIPT = b"#!/bin/sh\ntouch ../started\necho the password old\n"
CONFIGURED = b"[defaults]\nvault_password_file = .vault_pass\n"


def begin(place: Place, name: str = ".vault_pass") -> None:
    """Make a repository with a vault and an ignored password file, as many teams have it."""
    under_git(place, ATTRIBUTES)
    place.put(".gitignore", f"{name}\n".encode())
    place.put("a.vault.yml", sealed("old"))
    add_and_commit(place)
    place.put(name, PASSWORDS["old"])


def replace_by_branch(place: Place, content: bytes, mode: int, name: str = ".vault_pass") -> None:
    """Check out a branch that has this file. Nothing says that the ignored one is gone."""
    place.shell(f"git branch mine; git checkout -qb theirs; rm {name}")
    place.put(name, content, mode)
    place.put("a.vault.yml", sealed("old", b"more: text\n"))
    place.shell("git add -f . && git commit -qm theirs && git checkout -q mine")
    place.put(name, PASSWORDS["old"])
    silent("the checkout", place.shell("git checkout -q theirs"))
    assert place.get(name) == content


def was_started(place: Place) -> bool:
    return (place.path / "started").exists()


# Where a password file is, and what else is to be done for it. The last ones are links in the repository.
WITHIN = {
    "{tree}/.vault_pass": "true",
    "{tree}/inner/../.vault_pass": "mkdir inner",
    "{tree}/../way/.vault_pass": "ln -s tree ../way",
    "{path}/pass": "ln -s tree/.vault_pass ../pass",
    "{tree}/link": "ln -s ../secrets/old link",
    "{tree}/secrets/old": "ln -s ../secrets secrets",
    "{tree}/sub/pass": "git init -q sub; cp ../secrets/old sub/pass",
}


@pytest.mark.parametrize("where", WITHIN)
def test_what_git_runs(place: Place, where: str) -> None:
    """Neither an installation nor what git runs takes a password file of the repository, however it is named."""
    begin(place)
    place.shell(WITHIN[where])
    path = where.format(tree=place.tree, path=place.path)
    before = place.get(".git/config")
    why = f"it is in the repository {place.tree}, where a commit can replace it; move it out, for example to "
    why += "~/.vault_pass\n"
    for option in ("--vault-id=prod@", "--vault-password-file="):
        ended("an installation", place.run(HOOK, "--install", f"{option}{path}"), 2, f"{path}: {why}")
    assert place.get(".git/config") == before and ".git/hooks/pre-commit" not in place.names(), "nothing is done"
    done = place.run(TEXTCONV, f"--vault-password-file={path}", "a.vault.yml")
    ended("textconv", done, 0, f"{TEXTCONV}: {path}: {why[:-1]}; it is ignored\n", "shown as it is")
    assert TEXT.decode() not in done.stdout
    words = versions(place, "a.vault.yml", *(sealed("old", text) for text in (BASE, OURS, THEIRS)))
    ended("merge", place.run(MERGE, f"--vault-password-file={path}", *words), 128, f"{path}: {why[:-1]}")


OUTSIDE = {
    "in none": "~/secrets/old",
    "in git's own directory": "{tree}/.git/pass",
    "in another one": "{path}/other/pass",
    "in a repository above": "{path}/pass",
}


@pytest.mark.parametrize("where", OUTSIDE.values(), ids=OUTSIDE)
def test_outside(place: Place, where: str) -> None:
    """A password file anywhere else can be installed, and git diff and git merge work."""
    begin(place)
    place.shell("git init -q ../other; git init -q ..; cp .vault_pass .git/pass; cp .vault_pass ../other/pass")
    place.shell("cp .vault_pass ../pass")
    ended("it", place.run(HOOK, "--install", f"--vault-id=prod@{where.format(tree=place.tree, path=place.path)}"), 0)
    place.put("a.vault.yml", sealed("old", b"more: text\n"))
    ended("git diff", place.run("git", "diff"), 0, f"-{TEXT.decode()}+more: text\n")


def test_replaced_script(place: Place) -> None:
    """A branch replaces the file by a script, which runs neither at the next git diff, nor at a merge."""
    begin(place)
    path = f"{place.tree}/.vault_pass"
    place.shell(f"git config diff.ansible-vault.textconv '{TEXTCONV} --vault-id=prod@{path}'")
    place.shell(f"git config merge.ansible-vault.driver '{MERGE} --vault-id=prod@{path} %O %A %B %P'")
    replace_by_branch(place, SCRIPT, 0o755)
    ended("git diff", place.run("git", "diff", "mine"), 0, "it is in the repository", "# ansible-vault: not decrypted")
    place.shell("git checkout -qb third mine; echo > b; git add b; git commit -qm b; git merge theirs")
    assert not was_started(place)


# Command lines that would encrypt with the password, or look for it.
USES = {
    "encrypt": [WITH, "encrypt", "--vault-id=prod@.vault_pass", "new.yml"],
    "rekey": [WITH, "rekey", "--vault-password-file=../secrets/old", "--new-vault-id=prod@.vault_pass", "new.yml"],
    "rotate": [ROTATE, "--vault-password-file=../secrets/old", "--new-vault-id=prod@.vault_pass", "new.yml"],
    "edit": [EDIT, "--vault-id=prod@.vault_pass", "new.yml"],
    "check": [CHECK, "--vault-id=prod@.vault_pass", "new.yml"],
    "from above": ["env", "-C", "..", WITH, "encrypt", "--vault-id=prod@tree/.vault_pass", "tree/new.yml"],
    "settings": [WITH, "encrypt", "new.yml"],
}


@pytest.mark.parametrize("is_link", (False, True), ids=("a file", "a link"))
@pytest.mark.parametrize("words", USES.values(), ids=USES)
def test_replaced_password(place: Place, words: list[str], is_link: bool) -> None:
    """A branch replaces the file by another password, which a stranger knows. Nothing is encrypted with it."""
    begin(place)
    place.put("../usual", b"a file that every machine has\n")
    replace_by_branch(place, PASSWORDS["dev"], 0o644)
    if is_link:
        place.shell("ln -sf ../usual .vault_pass; git add -f .vault_pass; git commit -qm link")
    content = TEXT if "encrypt" in words else sealed("old")
    place.put("new.yml", content)
    if len(words) == 3:
        place.environment[FILE] = ".vault_pass"
    done = place.run(*words, EDITOR=place.script(CHANGE, "editor"))
    ended(
        "it", done, 1, f"git tracks {place.tree}/.vault_pass: everybody who has the repository has this password, or "
    )
    assert place.get("new.yml") == content


def check_each(place: Place, words: list[str], name: str) -> None:
    """Check, view and edit a vault with the password that the settings or these words name, and rotate it with the one
    that this password file has."""
    ended("check", place.run(CHECK, *words, "a.vault.yml"), 0, "1 decrypted, 0 failed")
    ended("view", place.run(WITH, "view", *words, "a.vault.yml"), 0, TEXT.decode())
    editor = place.script('echo more >> "$1"', "editor")
    ended("edit", place.run(EDIT, *words, "a.vault.yml", EDITOR=editor), 0)
    old, new = [f"--vault-password-file={name}"], place.by_file("new", "new-")
    ended("rotate", place.run(ROTATE, *old, *new, "a.vault.yml"), 0, summary(1))
    assert decrypted("new", place.get("a.vault.yml")) == TEXT + b"more\n"


@pytest.mark.parametrize("words", ([], ["--vault-password-file=.vault_pass"]), ids=("settings", "an option"))
def test_ignored_file(place: Place, words: list[str]) -> None:
    """An ignored password file in the repository, with a tracked ansible.cfg: the usual way of a team."""
    begin(place)
    if not words:
        place.put("ansible.cfg", CONFIGURED)
        add_and_commit(place)
    check_each(place, words, ".vault_pass")


def test_root_in_a_checkout(place: Place) -> None:
    """git refuses another user's repository, and so does not say what it tracks there."""
    needs_root()
    begin(place)
    place.put("ansible.cfg", CONFIGURED)
    for folder, _, names in os.walk(place.tree):
        for path in (folder, *(os.path.join(folder, name) for name in names)):
            os.chown(path, NOBODY, NOBODY)
    ended("view", place.run(WITH, "view", "a.vault.yml"), 0, TEXT.decode())
    silent("edit", place.run(EDIT, "a.vault.yml", EDITOR=place.script('echo more >> "$1"', "editor")))
    assert (place.tree / "a.vault.yml").stat().st_uid == NOBODY


class Named(NamedTuple):
    """How a tracked script is named, and whether it runs."""

    words: list[str]
    variables: dict[str, str]
    runs: bool


NAMED = {
    "an option": Named(["--vault-password-file", "vault-pass.sh"], {}, runs=True),
    "a labeled one": Named(["--vault-id", "default@vault-pass.sh"], {}, runs=True),
    "a variable": Named([], {FILE: "./vault-pass.sh", LIST: ""}, runs=True),
    "a list": Named([], {FILE: "", LIST: "default@vault-pass.sh"}, runs=True),
    "the file of settings that the user names": Named([], {"ANSIBLE_CONFIG": "./ansible.cfg"}, runs=True),
    "./ansible.cfg alone": Named([], {}, runs=False),
}
KEYS = {"vault_password_file": "vault-pass.sh", "vault_identity_list": "default@vault-pass.sh"}


@pytest.mark.parametrize("key", KEYS)
@pytest.mark.parametrize("named", NAMED.values(), ids=NAMED)
def test_tracked_script(place: Place, named: Named, key: str) -> None:
    """A script that asks a password manager may be tracked, since it has no password. It runs if the user has named it,
    and not if a stranger may have, whatever git says."""
    begin(place)
    place.script("touch started; echo the password old", "tools/manager")
    place.put("vault-pass.sh", b"#!/bin/sh\ncd ..\nexec manager get vault\n", 0o755)
    place.put("ansible.cfg", f"[defaults]\n{key} = {KEYS[key]}\n".encode())
    add_and_commit(place)
    place.environment |= named.variables
    if named.runs:
        check_each(place, named.words, "vault-pass.sh")
    else:
        why = "only ./ansible.cfg names this script; to run it, name it with an option or in the environment"
        ended("view", place.run(WITH, "view", "a.vault.yml"), 1, why)
        # git then does not say what it tracks.
        place.script("exit 128", "tools/git")
        ended("view", place.run(WITH, "view", "a.vault.yml"), 1, why)
    assert was_started(place) == named.runs


def test_without_git(place: Place) -> None:
    """A machine that has no git has no branches, either."""
    begin(place)
    place.script("exit 127", "tools/git")
    ended("view", place.run(WITH, "view", "--vault-password-file=.vault_pass", "a.vault.yml"), 0, TEXT.decode())


KNOWN = b"[defaults]\nvault_identity_list = prod@../secrets/dev\n"
ONLY_DECRYPTS = (
    "prod@../secrets/dev decrypts it, which only ./ansible.cfg names; to encrypt with it, name it with an option"
)


def test_script_beside_an_option(place: Place) -> None:
    """A script outside of repositories, such as make, may read a stranger's files. Beside an option, what only
    ./ansible.cfg names does not run, and is overlooked."""
    begin(place)
    script = place.script("touch started; echo the password old", "tools/anything")
    place.put("ansible.cfg", f"[defaults]\nvault_password_file = {script}\n".encode())
    done = place.run(CHECK, *place.by_file("old"), "a.vault.yml")
    ended("beside an option", done, 0, f"{script}: only ./ansible.cfg names this script; ", "; it is ignored\n")
    assert not (place.tree / "started").exists()
    ended("without one", place.run(CHECK, "a.vault.yml"), 0, "1 decrypted, 0 failed")
    assert (place.tree / "started").exists()


def test_password_of_a_stranger(place: Place) -> None:
    """Beside an option, what only ./ansible.cfg names decrypts and encrypts nothing: a stranger who knows it would read
    what is typed next. Without an option, it is the user's own."""
    begin(place)
    before = {"b.vault.yml": sealed("dev", label="prod"), "c.yml": block("dev", label="prod", name="c")}
    for name, content in before.items():
        place.put(name, content)
    place.put("ansible.cfg", KNOWN)
    option = place.by_id("prod", "old")
    ended("check", place.run(CHECK, *option, "b.vault.yml", "c.yml"), 0, "2 decrypted, 0 failed")
    editor = place.script('sed -i s/correct/a/ "$1"', "editor")
    for name, content in before.items():
        ended(name, place.run(EDIT, *option, name, EDITOR=editor), 1, ONLY_DECRYPTS)
        assert place.get(name) == content
    assert place.run_on(b"x", EDIT, *option, "--value", "c", "c.yml").returncode == 1
    for name in before:
        ended("by the settings", place.run(EDIT, name, EDITOR=editor), 0)


def test_conflict_with_a_stranger(place: Place) -> None:
    """A conflict whose other side has a password that only ./ansible.cfg names is not resolved under that."""
    under_git(place, "")
    ours, theirs = sealed("old", OURS, "prod"), sealed("dev", THEIRS, "prod")
    fork(place, {"a.yml": sealed("old", BASE, "prod")}, {"a.yml": ours}, {"a.yml": theirs, "ansible.cfg": KNOWN})
    place.shell("git merge theirs")
    before = place.get("a.yml")
    editor = place.script('sed -i "/[<=>|]/d" "$1"', "editor")
    ended("the edit", place.run(EDIT, *place.by_id("prod", "old"), "a.yml", EDITOR=editor), 1, ONLY_DECRYPTS)
    assert place.get("a.yml") == before


def test_owner_of_an_output(place: Place) -> None:
    """Who has made the file of --output first, in a directory such as /tmp, does not own the plaintext in it."""
    needs_root()
    place.put("a.yml", sealed("old"))
    place.put("out.yml", b"")
    os.chown(place.tree / "out.yml", NOBODY, NOBODY)
    silent("it", place.run(WITH, "decrypt", *place.by_file("old"), "--output", "out.yml", "a.yml"))
    about = (place.tree / "out.yml").stat()
    assert (about.st_uid, about.st_mode & 0o777, place.get("out.yml")) == (0, 0o600, TEXT)

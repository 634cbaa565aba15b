"""Links that lead out of a repository, and other users' links: what is replaced is not where they lead.

The links are in a directory `project`, which is a repository or not. Each companion gets each kind of link, and
`expected` says what happens, by the rule in the manual page of ansible-vault-with.
"""

import os
from pathlib import Path
from typing import NamedTuple

import pytest

from companion_cases import CHECK, EDIT, HOOK, NOBODY, ROTATE, TEXT, TEXTCONV, WITH, Place, block, ended, first_line
from companion_cases import check_answer, sealed, summary, to_new
from companion_cases.repository import committed, under_git
from lib.cases import Answer, answer_of
from lib.needs import needs, needs_root
from lib.subtests import SubTests

LOOP, MISSING = "Too many levels of symbolic links", "No such file or directory"


class Kind(NamedTuple):
    """Links in the project and where they lead, the path that is named, and its file, from the tree."""

    links: dict[str, str]
    path: str
    file: str


# Files are at project/a.yml, project/vars/b.yml and outside/a.yml.
KINDS = {
    "no link": Kind({}, "vars/b.yml", "project/vars/b.yml"),
    "a file out": Kind({"vars/l.yml": "../../outside/a.yml"}, "vars/l.yml", "outside/a.yml"),
    "a file out, absolute": Kind({"vars/l.yml": "{tree}/outside/a.yml"}, "vars/l.yml", "outside/a.yml"),
    "a folder out": Kind({"vars/l": "../../outside"}, "vars/l/a.yml", "outside/a.yml"),
    "a folder above": Kind({"vars/l": "../.."}, "vars/l/outside/a.yml", "outside/a.yml"),
    "a folder out and back": Kind({"vars/l": "../.."}, "vars/l/project/a.yml", "project/a.yml"),
    "dangling out": Kind({"vars/l.yml": "../../outside/new.yml"}, "vars/l.yml", "outside/new.yml"),
    "git's own files": Kind({"vars/l.yml": "../.git/new.yml"}, "vars/l.yml", "project/.git/new.yml"),
    "a descriptor": Kind({"vars/l.yml": "/proc/self/fd/9"}, "vars/l.yml", "/proc/"),
    "in and then out": Kind(
        {"vars/l.yml": "m.yml", "vars/m.yml": "../n", "n": "../outside/a.yml"}, "vars/l.yml", "outside/a.yml"
    ),
    "relative": Kind({"vars/l.yml": "b.yml"}, "vars/l.yml", "project/vars/b.yml"),
    "absolute": Kind({"vars/l.yml": "{tree}/project/vars/b.yml"}, "vars/l.yml", "project/vars/b.yml"),
    "to the directory above": Kind({"vars/l.yml": "../a.yml"}, "vars/l.yml", "project/a.yml"),
    "out and in again": Kind({"vars/l.yml": "../../project/vars/b.yml"}, "vars/l.yml", "project/vars/b.yml"),
    "to a link": Kind({"vars/l.yml": "m.yml", "vars/m.yml": "b.yml"}, "vars/l.yml", "project/vars/b.yml"),
    "out and in again by a link": Kind(
        {"vars/l.yml": "../../outside/back.yml", "../outside/back.yml": "../project/vars/b.yml"},
        "vars/l.yml",
        "project/vars/b.yml",
    ),
    "a folder within": Kind({"l": "vars"}, "l/b.yml", "project/vars/b.yml"),
    "a way to the project": Kind({"../way": "project"}, "../way/vars/b.yml", "project/vars/b.yml"),
    "a way to a link": Kind(
        {"../way": "project", "vars/l.yml": "../../outside/a.yml"}, "../way/vars/l.yml", "outside/a.yml"
    ),
    "dangling within": Kind({"vars/l.yml": "new.yml"}, "vars/l.yml", "project/vars/new.yml"),
    "a loop": Kind({"vars/l.yml": "m.yml", "vars/m.yml": "l.yml"}, "vars/l.yml", ""),
    "a loop of folders": Kind({"vars/l": "l"}, "vars/l/a.yml", ""),
}
FILES = ("project/a.yml", "project/vars/b.yml", "outside/a.yml")


class Command(NamedTuple):
    """A companion's words before the path, the content of each file, whether it writes, and its status if the path may
    be followed."""

    words: list[str]
    content: bytes
    writes: bool
    status: int = 0


VAULT = sealed("old")
COMMANDS = {
    "edit": Command([EDIT, "{old}"], VAULT, writes=True),
    "edit a value": Command([EDIT, "{old}", "--value", "secret"], block("old"), writes=True),
    "view": Command([WITH, "view", "{old}"], VAULT, writes=False),
    "several views": Command([WITH, "view", "{old}", "../good.yml"], VAULT, writes=False),
    "decrypt": Command([WITH, "decrypt", "{old}"], VAULT, writes=True),
    "decrypt to a stream": Command([WITH, "decrypt", "{old}", "--output=-"], VAULT, writes=False),
    "encrypt": Command([WITH, "encrypt", "{old}"], TEXT, writes=True),
    "rekey": Command([WITH, "rekey", "{old}", "{new}"], VAULT, writes=True),
    "textconv": Command([TEXTCONV, "{old}"], VAULT, writes=False),
    "textconv of a value": Command([TEXTCONV, "{old}", "--value", "secret"], block("old"), writes=False),
    "check": Command([CHECK, "{old}"], VAULT, writes=False),
    "rotate": Command([ROTATE, "{old}", "{new}"], VAULT, writes=True),
    "a dry run": Command([ROTATE, "{old}", "{new}", "--dry-run"], VAULT, writes=False, status=1),
}
# Those that show a typed file wherever it is.
SHOWING = ("view", "decrypt to a stream", "several views", "textconv", "textconv of a value")
# What a companion that writes nothing prints of a file that it may read.
SHOWN = {"check": "decrypted by", "a dry run": "would be rotated"}


def expected(kind: Kind, is_repository: bool, tree: Path) -> str:
    """Return the reason not to replace the file; empty if it may be replaced.

    A link in a repository has to lead into it, and not to git's own files. Any other link is the user's.
    """
    if not kind.file:
        return LOOP
    leads_out = not kind.file.startswith("project/") or "/.git/" in kind.file
    target = kind.file if kind.file.startswith("/") else f"{tree}/{kind.file}"
    return f"a link leads out of {tree}/project; name {target}" if leads_out and is_repository else ""


def prepare(place: Place, kind: Kind, content: bytes) -> None:
    """Put all as it was before the first command."""
    for path in list_contents(place):
        (place.tree / path).unlink()
    for path in (*FILES, "good.yml"):
        place.put(path, content)
    for path, target in kind.links.items():
        (place.tree / "project" / path).unlink(missing_ok=True)
        (place.tree / "project" / path).symlink_to(target.format(tree=place.tree))


def run_command(place: Place, words: list[str], path: str) -> tuple[int, str, str]:
    secrets = {"{old}": place.by_file("old"), "{new}": place.by_file("new", "new-")}
    full = [part for word in words for part in secrets.get(word, [word])]
    editor = place.script('echo "more: text" >> "$1"', "editor")
    done = place.run_on(b"a new text", "env", "-C", "project", *full, path, EDITOR=editor)
    return done.returncode, done.stdout.decode(), done.stderr.decode()


def list_contents(place: Place) -> dict[str, bytes]:
    """Return the content of each file, except the repository's own, but not of links."""
    names = {str(Path(folder, name)) for folder, _, names in os.walk(place.tree) for name in names}
    paths = {os.path.relpath(name, place.tree): Path(name) for name in names if not os.path.islink(name)}
    return {name: path.read_bytes() for name, path in paths.items() if "/.git/" not in name or name.endswith(".yml")}


class Outcome(NamedTuple):
    """The status and the messages of a run, the files that it changes, makes or removes, and whether it shows what is
    in the file."""

    status: int
    message: str
    changed: list[str]
    is_shown: bool


def try_command(place: Place, command: str, path: str) -> Outcome:
    before = list_contents(place)
    status, shown, message = run_command(place, COMMANDS[command].words, path)
    after = list_contents(place)
    changed = [name for name in before | after if before.get(name) != after.get(name)]
    return Outcome(status, message, changed, is_shown=SHOWN.get(command, "correct horse") in shown)


def check_refused(command: str, outcome: Outcome, why: str, status: int) -> None:
    assert why in outcome.message, "it is refused"
    assert outcome.status == status, "the status of a refusal"
    assert outcome.changed == [], "no file changes"
    assert outcome.is_shown == (command == "several views"), "no vault but the other one is shown"


def check_followed(command: str, outcome: Outcome, file: str, message: str = "") -> None:
    writes = COMMANDS[command].writes
    changed = [file] if writes else []
    wanted = Outcome(COMMANDS[command].status, message, changed=changed, is_shown=not writes)
    assert outcome == wanted, "it is followed"


@pytest.mark.usefixtures("git")
@pytest.mark.parametrize("is_repository", (True, False))
@pytest.mark.parametrize("name", KINDS)
def test_each_link(place: Place, name: str, is_repository: bool, subtests: SubTests) -> None:
    """A path that may be followed leads to its file, and to show it, any may. Otherwise, nothing changes."""
    kind = KINDS[name]
    place.shell("git init -q project" if is_repository else "mkdir project")
    why = expected(kind, is_repository, place.tree)
    for command in COMMANDS:
        prepare(place, kind, COMMANDS[command].content)
        outcome = try_command(place, command, kind.path)
        with subtests.test(command):
            if why and (command not in SHOWING or why == LOOP):
                check_refused(command, outcome, f": {kind.path}: {why}", COMMANDS[command].status or 1)
            elif kind.file not in FILES and (command != "edit" or "/new.yml" not in kind.file):
                check_refused(command, outcome, MISSING, 1)
            elif "/.git/" in kind.file:
                check_refused(command, outcome, f": {kind.path}: there is no directory ", 1)
            else:
                made = f"{EDIT}: {kind.path}: encrypted the new vault (label default)\n"
                check_followed(command, outcome, kind.file, message="" if kind.file in FILES else made)


class Owners(NamedTuple):
    """Who owns a link, a `.git` above it, and the file to which it leads; and whether the link is followed."""

    link: int
    git: int
    file: int
    is_followed: bool


OWNERS = {
    "another user's link to root's file": Owners(link=NOBODY, git=0, file=0, is_followed=False),
    "in that user's repository": Owners(link=NOBODY, git=NOBODY, file=0, is_followed=False),
    "to a third user's file": Owners(link=NOBODY, git=0, file=NOBODY - 1, is_followed=False),
    "root in a user's checkout": Owners(link=NOBODY, git=NOBODY, file=NOBODY, is_followed=True),
    "root's link to a user's file": Owners(link=0, git=NOBODY, file=NOBODY, is_followed=True),
    "root's own": Owners(link=0, git=0, file=0, is_followed=True),
}


@pytest.mark.parametrize("path", ("project/l.yml", "project/l/b.yml"))
@pytest.mark.parametrize("has_git", (True, False), ids=("git", "no git"))
@pytest.mark.parametrize("owners", OWNERS.values(), ids=OWNERS)
def test_owners(place: Place, owners: Owners, has_git: bool, path: str, subtests: SubTests) -> None:
    """A link counts if the user or root owns it, or the owner of what it leads to, be it the file or a directory."""
    needs_root()
    kind = Kind({"l.yml": "vars/b.yml", "l": "vars"}, path, "project/vars/b.yml")
    place.shell("mkdir project" + "; mkdir .git" * has_git)
    for command in COMMANDS:
        # git itself refuses another user's repository.
        if command == "check":
            continue
        prepare(place, kind, COMMANDS[command].content)
        os.chown(place.tree / "project/vars/b.yml", owners.file, -1)
        for link in kind.links:
            os.chown(place.tree / "project" / link, owners.link, -1, follow_symlinks=False)
        if has_git:
            os.chown(place.tree / ".git", owners.git, -1)
        outcome = try_command(place, command, f"../{path}")
        with subtests.test(command):
            link = f"{place.tree}/{os.path.dirname(path) if path.endswith('/b.yml') else path}"
            why = f": ../{path}: {link} is another user's link; name {place.tree}/project/vars/b.yml instead\n"
            if owners.is_followed:
                check_followed(command, outcome, kind.file)
            else:
                check_refused(command, outcome, why, COMMANDS[command].status or 1)


def test_new_file(place: Place) -> None:
    """Through another user's link, root makes no file in a directory of root's."""
    needs_root()
    place.shell("mkdir mine; ln -s mine theirs")
    os.chown(place.tree / "theirs", NOBODY, -1, follow_symlinks=False)
    done = place.run(WITH, "create", *place.by_file("old"), "theirs/new.yml", EDITOR="true")
    why = (
        f"{WITH}: theirs/new.yml: {place.tree}/theirs is another user's link; name {place.tree}/mine/new.yml instead\n"
    )
    check_answer("it", done, 1, errors=why)


@pytest.mark.usefixtures("git")
@pytest.mark.parametrize("name", KINDS)
def test_hook(place: Place, name: str) -> None:
    """What is outside of the repository makes no difference to the hook."""
    kind = KINDS[name]
    place.shell("git init -q project")
    with_plaintext = run_hook(place, kind, outside=TEXT)
    with_vault = run_hook(place, kind, outside=VAULT)
    assert with_plaintext == with_vault, "the two answers"
    assert with_plaintext.status == 1, "the files of the project are plaintext"


def run_hook(place: Place, kind: Kind, outside: bytes) -> Answer:
    """Run it on plaintext, while the file outside has this content."""
    prepare(place, kind, TEXT)
    place.put("outside/a.yml", outside)
    place.put("project/.gitattributes", b"*.yml ansible-vault\n")
    place.shell("git add -A", folder="project")
    return answer_of(place.run(HOOK, kind.path, folder="project"))


@pytest.mark.usefixtures("git")
def test_nested_repository(place: Place) -> None:
    """In a repository below another one, a link into itself is followed, and one into that one is not."""
    place.shell("git init -q project; git init -q project/clone; ln -s a.yml project/clone/own.yml")
    (place.tree / "project/clone/l").symlink_to("../a.yml")
    for command, (_, content, _, status) in COMMANDS.items():
        for name in ("project/a.yml", "project/clone/a.yml", "good.yml"):
            place.put(name, content)
        outcome = try_command(place, command, "clone/l")
        if command in SHOWING:
            check_followed(command, outcome, "project/a.yml")
            continue
        why = f": clone/l: a link leads out of {place.tree}/project/clone; name {place.tree}/project/a.yml instead\n"
        assert why in outcome.message, f"{command} is refused"
        assert outcome.status == (status or 1), f"{command}: the status of a refusal"
        assert outcome.changed == [], f"{command}: no file changes"
    place.put("project/clone/a.yml", VAULT)
    done = place.run(TEXTCONV, *place.by_file("old"), "clone/own.yml", folder="project")
    check_answer("a repository within it", done, output=first_line() + TEXT.decode())


@pytest.mark.usefixtures("git")
def test_shared_vault(place: Place) -> None:
    """A team links a shared vault in. In a submodule, it is the repository's own. Elsewhere, it is shown through the
    link, and whoever changes it names the file."""
    place.shell("git init -q shared; git init -q project; git init -q project/shared")
    for name in ("shared/vault.yml", "project/shared/vault.yml"):
        place.put(name, VAULT)
    (place.tree / "project/in.yml").symlink_to("shared/vault.yml")
    (place.tree / "project/out.yml").symlink_to("../shared/vault.yml")
    for name in ("in.yml", "out.yml"):
        done = place.run(WITH, "view", *place.by_file("old"), name, folder="project")
        check_answer(name, done, output=TEXT.decode())
    rotate = [ROTATE, *to_new(place)]
    done = place.run(*rotate, "out.yml", folder="project")
    ended("out.yml", done, 1, f"a link leads out of {place.tree}/project; name {place.tree}/shared/vault.yml instead")
    for path in ("in.yml", f"{place.tree}/shared/vault.yml"):
        ended(path, place.run(*rotate, path, folder="project"), 0, summary(1))


@pytest.mark.usefixtures("git")
def test_link_into_a_repository(place: Place) -> None:
    """A user's own link leads into a repository, whose links still must not lead out of it."""
    place.shell("git init -q clone")
    place.put("clone/sub/a.yml", VAULT)
    place.put("clone/b.yml", VAULT)
    place.put("outside/c.yml", VAULT)
    (place.tree / "mine").symlink_to("clone/sub")
    (place.tree / "clone/sub/out").symlink_to("../../outside")
    (place.tree / "clone/sub/within.yml").symlink_to("../b.yml")
    rekeys = [WITH, "rekey", *place.by_file("old"), *place.by_file("new", "new-")]
    refused = place.run(*rekeys, "mine/out/c.yml")
    assert (refused.returncode, place.get("outside/c.yml")) == (1, VAULT), refused
    assert f"a link leads out of {place.tree}/clone; name {place.tree}/outside/c.yml" in refused.stderr
    done = place.run(*rekeys, "mine/a.yml", "mine/within.yml")
    assert (done.returncode, done.stderr) == (0, ""), done
    assert VAULT not in (place.get("clone/sub/a.yml"), place.get("clone/b.yml"))


class Linked(NamedTuple):
    """The content of a file outside of the repository, and whether a link to it makes a search fail."""

    content: bytes
    fails: bool


LINKED = {
    "plaintext": Linked(TEXT, fails=False),
    "a value": Linked(block("old"), fails=True),
    "a comment": Linked(b"# $ANSIBLE_VAULT is a variable\n", fails=False),
    "a comment in broken YAML": Linked(b"# $ANSIBLE_VAULT is a variable\n[\n", fails=False),
    "a value in what is no text": Linked(block("old") + b"\0", fails=True),
}


@pytest.mark.usefixtures("git")
@pytest.mark.parametrize("linked", LINKED.values(), ids=LINKED)
def test_found_link(place: Place, linked: Linked) -> None:
    """A search fails at a link out only if there may be something to do in its file, or if the link is marked."""
    place.shell("git init -q project")
    place.put("project/a.yml", sealed("old"))
    place.put("outside.yml", linked.content)
    (place.tree / "project/l.yml").symlink_to("../outside.yml")
    check = [CHECK, *place.by_file("old"), "."]
    rotate = [ROTATE, *to_new(place), "."]
    told = f"./l.yml: a link leads out of {place.tree}/project; name {place.tree}/outside.yml instead\n"
    for words in (check, rotate):
        done = place.run(*words, folder="project")
        assert done.returncode == (1 if linked.fails else 0), done
        assert done.stderr == f"{words[0]}: {told}", "the link is named"
    place.put("project/.gitattributes", b"l.yml ansible-vault\n")
    done = place.run(CHECK, *place.by_file("new"), ".", folder="project")
    ended("a marked one", done, 1, told, "1 decrypted, 1 failed")
    assert place.get("outside.yml") == linked.content, "the file outside stays"
    os.truncate(place.tree / "outside.yml", 1 << 27)
    # Of such a file, any mention of a vault counts.
    status = 1 if b"vault" in linked.content.lower() else 0
    ended("one too long to be read whole", place.run(*rotate, folder="project"), status, told)


class Unread(NamedTuple):
    """What makes the target of a link that leads out, whether the link is named, and whether a search fails at it."""

    make: str
    is_named: bool
    fails: bool


UNREAD = {
    "a closed file": Unread("echo > outside; chmod 0 outside", is_named=True, fails=True),
    "a file in a closed directory": Unread("mkdir -m 0 outside; ln -sfn ../outside/a project/l.yml", True, fails=True),
    "a pointer of git-lfs": Unread("echo version https://git-lfs.github.com/spec/v1 > outside", True, fails=False),
    "nothing": Unread(":", is_named=False, fails=False),
}


@pytest.mark.usefixtures("git")
@pytest.mark.parametrize("unread", UNREAD.values(), ids=UNREAD)
def test_unread_targets(place: Place, unread: Unread) -> None:
    """A link out to what cannot be searched is a failure, and nothing is said of what its target is."""
    needs_root()
    place.put("project/a.yml", sealed("new"))
    place.shell(f"git init -q project; ln -s ../outside project/l.yml; {unread.make}; chown -R nobody project")
    failed = int(unread.fails)
    check = [CHECK, *place.by_file("new"), "."]
    runs = {
        f"1 decrypted, {failed} failed\n": check,
        f"{summary(0, 1, failed=failed)}\n": [ROTATE, *to_new(place), "."],
    }
    for counts, words in runs.items():
        done = place.as_nobody("env", "-C", "project", *words)
        ended(words[0], done, failed, counts)
        assert ("./l.yml: " in done.stderr) == unread.is_named, done
        assert "git-lfs" not in done.stderr, done


@pytest.mark.usefixtures("git")
def test_descriptor_of_a_password(place: Place) -> None:
    """Companions have passwords in open files, to which a link could lead."""
    for number in range(3, 12):
        (place.tree / f"{number}.yml").symlink_to(f"/proc/self/fd/{number}")
    secrets = [*place.by_file("old"), *place.by_file("new")]
    for number in range(3, 12):
        for path in (f"{number}.yml", f"/proc/self/fd/{number}", f"/dev/fd/{number}"):
            done = place.run(TEXTCONV, *secrets, path)
            assert (done.returncode, done.stdout) == (1, ""), path
            assert "leads out of" in done.stderr or "it is not a regular file" in done.stderr or MISSING in done.stderr
    done = place.run(CHECK, *secrets, ".")
    assert done.returncode == 0, done
    assert done.stdout == "0 decrypted, 0 failed\n", "nothing is read"
    assert ".yml: a link leads out of " in done.stderr and "the password" not in done.stderr, "each link is named"


@pytest.mark.usefixtures("git")
def test_output(place: Place) -> None:
    """The alias writes no output through a link out of a repository, whether the program opens it or not."""
    place.shell("git init -q project")
    place.put("project/a.yml", sealed("old"))
    for name, target in {"out": "../new", "full": "../old", "in": "b.yml"}.items():
        (place.tree / "project" / name).symlink_to(target)
    place.put("old", b"old\n")
    for words in (["decrypt", "a.yml"], ["encrypt_string", "--name=a", "one"], ["encrypt_string", "one", "two"]):
        for name, target in (("out", "new"), ("full", "old")):
            done = place.run(WITH, *words, *place.by_file("old"), f"--output={name}", folder="project")
            why = f"{WITH}: {name}: a link leads out of {place.tree}/project; name {place.tree}/{target} instead\n"
            assert done.returncode == 1, f"an output through {name}"
            assert done.stdout == "", f"an output through {name}"
            assert done.stderr.endswith(why), "the reason"
        assert place.run(WITH, *words, *place.by_file("old"), "--output=in", folder="project").returncode == 0
        (place.tree / "project/b.yml").unlink()
    assert place.get("old") == b"old\n", "the file outside stays"
    assert not (place.tree / "new").exists(), "no file is made outside"


# What a shell makes of a file, as words of the alias, and what is printed.
STREAMS = [
    "view <(cat a.yml)",
    "view /dev/stdin < a.yml",
    "view /dev/stdin < <(cat a.yml)",
    'decrypt /dev/stdin --output=/dev/stdout <<< "$(cat a.yml)"',
    "decrypt --output=/dev/stdout a.yml > out; cat out",
    "decrypt --output=/dev/fd/3 a.yml 3>&1",
]


@pytest.mark.parametrize("line", STREAMS)
def test_streams(place: Place, line: str) -> None:
    """A name that the system has for an open file is no link of a stranger."""
    needs("bash")
    place.put("a.yml", sealed("old"))
    done = place.shell(f"{WITH} --vault-password-file {place.secret('old')} {line}", "bash")
    check_answer(line, done, output=TEXT.decode())


def test_streams_that_are_no_files(place: Place) -> None:
    """A companion that reads the file itself refuses them."""
    needs("bash")
    place.put("a.yml", sealed("old"))
    for companion in (TEXTCONV, EDIT, CHECK):
        for path in ("/dev/stdin < a.yml", "<(cat a.yml)", "/dev/null", "/proc/self/fd/0 < a.yml"):
            done = place.shell(f"{companion} --vault-password-file {place.secret('old')} {path}", "bash")
            ended(path, done, 1, "it is not a regular file")


def test_no_current_directory(place: Place) -> None:
    """An absolute path does not need it."""
    place.put("a.yml", sealed("old"))
    secret, path = place.secret("old"), place.tree / "a.yml"
    for companion, shown in ((TEXTCONV, first_line() + TEXT.decode()), (f"{WITH} view", TEXT.decode())):
        line = f"mkdir gone && cd gone && rmdir ../gone && {companion} --vault-password-file {secret}"
        done = place.shell(f"{line} {path}")
        check_answer(f"{companion} of an absolute path", done, output=shown)
        assert place.shell(f"{line} a.yml").returncode == 1, "a relative path needs it"


# What happens to the file while the editor runs. Each leads to a copy of it elsewhere.
SWAPS = {
    "the file": "ln -sf ../../outside/copy.yml vars/b.yml",
    "its directory": "mv vars old; ln -s ../outside vars; mv ../outside/copy.yml ../outside/b.yml",
}


@pytest.mark.parametrize("swap", SWAPS.values(), ids=SWAPS)
def test_swapped(place: Place, swap: str) -> None:
    """A file that a link has replaced during an edit counts as changed, even if it leads to the same content."""
    for name in ("project/vars/b.yml", "outside/copy.yml"):
        place.put(name, sealed("old"))
    editor = place.script(f'echo more >> "$1"; cd {place.tree}/project; {swap}', "editor")
    done = place.run(EDIT, *place.by_file("old"), "vars/b.yml", folder="project", EDITOR=editor)
    ended("the edit", done, 1, "vars/b.yml: another program changed it in the meantime")
    assert place.kept() == [TEXT + b"more\n"], "what was saved is kept"
    assert {*list_contents(place).values()} == {sealed("old")}, "nothing else has changed"


def test_link_to_devices(place: Place) -> None:
    """Another user's link to a directory counts no more if it leads to open files or devices."""
    needs_root()
    (place.tree / "theirs").symlink_to("/proc/self/fd")
    os.chown(place.tree / "theirs", NOBODY, -1, follow_symlinks=False)
    place.put("a.yml", sealed("old"))
    done = place.run(WITH, "decrypt", *place.by_file("old"), "--output", "theirs/1", "a.yml")
    ended("it", done, 1, f"{place.tree}/theirs is another user's link")


def test_under_git(place: Place) -> None:
    """git passes regular files, and no links, even where the user's own links lead to the repository."""
    needs("git")
    under_git(place, "* diff=ansible-vault\n")
    place.run("git", "config", "diff.ansible-vault.textconv", " ".join([TEXTCONV, *place.by_file("old")]))
    (place.tree / "link.yml").symlink_to("../outside.yml")
    committed(place, "a.yml", sealed("old", b"first\n"))
    (place.tree / "link.yml").unlink()
    (place.tree / "link.yml").symlink_to("../other.yml")
    committed(place, "a.yml", sealed("old", b"second\n"))
    (place.tree / "link.yml").unlink()
    (place.tree / "link.yml").symlink_to("/proc/self/fd/3")
    place.put("a.yml", sealed("old", b"third\n"))
    (place.path / "way").symlink_to("tree")
    (place.path / "t").symlink_to("temporary")
    changes = {
        "diff": ["-second", "+third", "-../other.yml", "+/proc/self/fd/3"],
        "log -p -1": ["-first", "+second", "-../outside.yml", "+../other.yml"],
    }
    for folder in (".", "../way"):
        for command, wanted in changes.items():
            done = place.shell(f"git {command} | grep '^[-+][a-z./]'", folder=folder, TMPDIR=f"{place.path}/t")
            assert done.stdout.splitlines() == wanted, f"git {command} in {folder}"
            assert done.stderr == "", f"git {command} in {folder}"

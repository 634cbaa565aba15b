"""A directory that a stranger made starts no program, be it by its git settings, its attributes or its hooks."""

import pytest

from companion_cases import CHECK, EDIT, HOOK, MERGE, ROTATE, TEXT, TEXTCONV, WITH, Place, block, sealed
from companion_cases.repository import committed, under_git

pytestmark = pytest.mark.usefixtures("git")

# Settings of git whose values are programs, from git-config(1). The stranger chooses the subsections of filters and
# drivers, since the attributes name them.
PROGRAMS = """
    core.alternateRefsCommand core.askPass core.editor core.fsmonitor core.gitProxy core.sshCommand credential.helper
    diff.ansible-vault.command diff.ansible-vault.textconv diff.external filter.x.clean filter.x.smudge filter.y.process
    gpg.program merge.ansible-vault.driver remote.origin.uploadpack uploadpack.packObjectsHook
""".split()
# Settings that make git start more of these programs.
OTHERS = {"core.repositoryFormatVersion": "1", "extensions.partialClone": "origin", "remote.origin.promisor": "true"}
OTHERS |= {"protocol.allow": "always", "protocol.ext.allow": "always"}
HOOKS = "post-checkout post-index-change post-merge pre-commit pre-merge-commit reference-transaction".split()
ATTRIBUTES = "* filter=x merge=ansible-vault ident\n*.yml diff=ansible-vault\n*.dat filter=y\n"
# Commands of git in the same directory, without a companion, and the programs that they and a fetch start.
PLAIN = "git hash-object a.yml other.dat; git read-tree HEAD; git diff; git diff --no-ext-diff"
STARTED = """
    core.fsmonitor filter.x.clean filter.y.process post-index-change diff.external diff.ansible-vault.command
    diff.ansible-vault.textconv remote.origin.url
""".split()


def commit_files(place: Place) -> None:
    """Make two branches, an open conflict, and files that differ from the index."""
    under_git(place, ATTRIBUTES)
    place.put("b.yml", block("old"))
    committed(place, "a.yml", sealed("old"))
    place.shell("git branch other")
    committed(place, "a.yml", sealed("old", b"two\n"))
    committed(place, "plain.txt", b"one\n")
    place.shell("git checkout -q other")
    committed(place, "a.yml", sealed("dev", b"three\n"))
    place.shell("git checkout -q - && git rev-parse other > .git/MERGE_HEAD")
    place.put("c.yml", sealed("old", b"staged\n"))
    for name in ("b.yml", "plain.txt", "other.dat"):
        place.put(name, TEXT)
    place.shell("git add c.yml && git -c core.fsmonitor=true update-index --fsmonitor")


def trap(place: Place, name: str, folder: str = "programs") -> str:
    """Write a program that notes its start, and return its path."""
    (place.path / folder).mkdir(exist_ok=True)
    return place.script(f'echo "${{0##*/}}" >> {place.path}/started', f"{folder}/{name}")


def started(place: Place) -> set[str]:
    """Return what has started since the last call."""
    found = place.get("../started").decode().split()
    place.put("../started", b"")
    return {*found}


@pytest.mark.parametrize("folder", ("tree/.git/hooks", "hooks"))
def test_companions(place: Place, folder: str) -> None:
    """The hooks are git's own, or those of core.hooksPath. Without a companion, git starts some of the programs, one
    of them to fetch a missing object; otherwise, no run could fail. The hook needs that object, but fetches nothing."""
    commit_files(place)
    settings = OTHERS | {name: trap(place, name) for name in PROGRAMS}
    settings["remote.origin.url"] = f"ext::{trap(place, 'remote.origin.url')}"
    for name in HOOKS:
        trap(place, name, folder)
    if folder == "hooks":
        settings["core.hooksPath"] = str(place.path / folder)
    for name, value in settings.items():
        assert place.run("git", "config", name, value).returncode == 0, name
    place.put(".git/info/attributes", ATTRIBUTES.encode())
    config, old = place.get(".git/config"), place.by_file("old")
    place.put("../started", b"")
    for name in ("base", "ours", "theirs"):
        place.put(f"../{name}", sealed("old", name.encode()))
    marks = place.script("printf '<<<<<<< ours\\nx: 1\\n=======\\nx: 2\\n>>>>>>> theirs\\n' > \"$1\"", "editor")
    hooks = [[HOOK], [HOOK, "--all"], [HOOK, "--since", "other"], [HOOK, "a.yml"], [HOOK, "--install", *old]]
    hooks.append([HOOK, "--uninstall"])
    runs = [
        [CHECK, *old, "."],
        *hooks,
        [TEXTCONV, *old, "a.yml"],
        [WITH, "view", *old, "a.yml"],
        [EDIT, *old, "a.yml"],
        [MERGE, *old, "../base", "../ours", "../theirs", "a.yml"],
        [ROTATE, *old, *place.by_file("new", "new-"), "."],
        # The hook checks commits only in a clone that is not partial.
        ["sed", "-i", "/promisor/d; /partialClone/d", ".git/config"],
        *hooks,
    ]
    for words in runs:
        done = place.run(*words, EDITOR=marks)
        assert started(place) == set(), (words, done)
    place.put(".git/config", config)
    place.shell(PLAIN)
    blob = place.shell("git rev-parse HEAD:b.yml").stdout.strip()
    (place.tree / ".git/objects" / blob[:2] / blob[2:]).unlink()
    place.shell("git cat-file -p HEAD:b.yml")
    assert set(STARTED) - started(place) == set()
    place.shell("git add b.yml")
    started(place)
    done = place.run(HOOK)
    assert (done.returncode, started(place)) == (1, set()), done

"""ansible-vault-hook: later commits (--since), merges, and the files and the change of the last commit (--all)."""

import re

import pytest

from companion_cases import HOOK, TEXT, Place, block, ended, sealed, silent
from companion_cases.repository import GONE, WHOLE, committed, fork, staged, told, under_git, with_hooks

pytestmark = pytest.mark.usefixtures("git")


@pytest.mark.parametrize("kind", ("sha1", "sha256"))
def test_history(place: Place, kind: str) -> None:
    """A leak counts even if a later commit takes it back. Neither the contents in the index count nor the files, nor
    what is checked out."""
    place.shell(f"git init -q --object-format={kind}")
    under_git(place, "")
    for name in ("a.yml", "b.yml"):
        place.put(name, sealed("old"))
    place.put("deep/.gitattributes", b"*.vault.yml diff=ansible-vault\n")
    first = committed(place, "vars.yml", sealed("old"))
    place.shell("git mv a.yml a.txt && git rm -q b.yml")
    place.put("a.txt", TEXT)
    leak = committed(place, "vars.yml", TEXT)
    place.shell("git rm -q a.txt")
    committed(place, "vars.yml", sealed("new"))
    committed(place, "b.yml", TEXT)
    last = committed(place, "deep/a.vault.yml", TEXT)
    for name in ("b.yml", "deep/a.vault.yml"):
        place.put(name, sealed("old"))
    place.shell("git add -A")
    in_first = WHOLE.replace("HEAD", first)
    in_last = f"{last}: deep/a.vault.yml is not encrypted"
    since_first = [
        f"{leak}: a.txt {GONE.format('a.yml')}",
        f"{leak}: vars.yml {in_first}",
        in_last,
    ]
    assert told(place.run(HOOK, "--since", first, folder="deep")) == since_first
    assert told(place.run(HOOK, "--since", leak)) == [in_last], "nor what came before"
    silent("nothing since", place.run(HOOK, "--since", "HEAD"))
    assert told(place.run(HOOK, "--all", folder="deep")) == [in_last]
    place.shell("git reset -q --hard && git sparse-checkout set other")
    assert told(place.run(HOOK, "--all")) == [in_last], "whatever is checked out"
    assert "deep" not in place.names(), "it is not checked out"


@pytest.mark.parametrize("zeros", ["0" * 40, "0" * 64, ""])
def test_no_commit(place: Place, zeros: str) -> None:
    """A pipeline has zeros for a new branch, or nothing. What the message names instead checks the branch."""
    under_git(place, "")
    committed(place, "a.yml", sealed("old"))
    place.shell("git update-ref refs/remotes/origin/main HEAD && git checkout -qb new")
    last = committed(place, "a.yml", TEXT)
    done = place.run(HOOK, "--since", zeros)
    ended("no commit", done, 1, f"{zeros} is not a commit in this clone", "a new branch")
    [words] = re.findall("--since .*", done.stderr)
    [line] = told(place.run(HOOK, *words.split()))
    assert line.startswith(f"{last}: a.yml {WHOLE.removesuffix('HEAD')}")
    assert len(told(place.run(HOOK, "--all"))) == 1


def test_amend(place: Place) -> None:
    """What is amended is compared with the commit that it replaces, and that with its parent when it is checked."""
    with_hooks(place)
    committed(place, "a.yml", sealed("old"))
    committed(place, "b.yml", sealed("old"))
    amend = "git add -A && git commit -q --amend --no-edit"
    for name, content, why in (("b.yml", sealed("new"), ""), ("b.yml", TEXT, WHOLE), ("a.yml", TEXT, WHOLE)):
        place.put(name, content)
        done = place.shell(amend)
        assert told(done) == ([f"{name} {why}"] if why else []), name
        place.shell("git reset -q --hard")
    place.put(".gitattributes", b"/a.yml -ansible-vault\n")
    place.put("a.yml", TEXT)
    silent("a line of the same commit", place.shell(amend))
    place.put("a.yml", TEXT * 2)
    silent("and again", place.shell(amend))
    silent("the amended commit", place.shell(f"{HOOK} --since HEAD~1 && {HOOK} --all"))


UNSHALLOW, NOT_PARTIAL = "run `git fetch --unshallow`", "git "
# What makes a clone that lacks something, and what the message says.
LACKING = {"depth=1": UNSHALLOW, "depth=2": UNSHALLOW, "filter=blob:none": NOT_PARTIAL, "filter=tree:0": NOT_PARTIAL}


@pytest.mark.parametrize("words", (["--all"], ["--since", "HEAD~1"]), ids=" ".join)
@pytest.mark.parametrize("option, why", LACKING.items(), ids=LACKING)
def test_clones_that_lack_something(place: Place, option: str, why: str, words: list[str]) -> None:
    """What is missing is not taken for what is not there, nor fetched. The message says what to do."""
    under_git(place, "")
    for text in (b"1", b"2", b"3"):
        committed(place, "a.yml", sealed("old", text))
    clone = f"git clone -q --no-checkout --{option} file://$PWD ../clone"
    done = place.shell(f"git config uploadpack.allowFilter true && {clone}")
    assert done.returncode == 0, done
    files = sorted((place.path / "clone").rglob("*"))
    ended(option, place.run(HOOK, *words, folder="../clone"), 1, f"{HOOK}: ", why)
    assert sorted((place.path / "clone").rglob("*")) == files, "nothing is fetched"


def test_merge(place: Place) -> None:
    """What a merge puts in plaintext is compared with each branch, before the commit and after it."""
    under_git(place, "")
    fork(place, {"x.txt": b"1\n"}, {"one.yml": sealed("old")}, {"two.yml": sealed("old")})
    ours, theirs = (place.shell(f"git rev-parse {name}").stdout[:10] for name in ("HEAD", "theirs"))
    place.shell("git merge -q --no-commit theirs")
    in_both = WHOLE.replace("HEAD", f"{ours} or {theirs}")
    in_theirs = WHOLE.replace("HEAD", theirs)
    lines = staged(place, {"one.yml": TEXT, "two.yml": TEXT})
    assert lines == [f"one.yml {WHOLE}", f"two.yml {in_theirs}"], "before the commit"
    merge = committed(place, "x.txt", b"2\n")
    lines = told(place.run(HOOK, "--since", ours))
    assert lines == [f"{merge}: one.yml {in_both}", f"{merge}: two.yml {in_both}"], "after the commit"


def test_octopus(place: Place) -> None:
    """A merge of several branches is compared with each of them."""
    with_hooks(place)
    for name in ("one", "two"):
        place.put(f"{name}.yml", TEXT)
    committed(place, "a.txt", TEXT)
    for name in ("one", "two"):
        place.shell(f"git checkout -q -b {name} HEAD")
        committed(place, f"{name}.yml", sealed("old"))
        place.shell("git checkout -q -")
    place.shell("git checkout -q -b three HEAD")
    committed(place, "three.yml", TEXT)
    merge = "git merge --no-edit one two > ../merged"
    silent("vaults", place.shell(f"{merge} && {HOOK} --since HEAD^ && git reset -q --hard HEAD^"))
    wanted = []
    for name in ("one", "two"):
        commit = place.shell(f"git rev-parse {name}").stdout[:10]
        wanted.append(f"{name}.yml {WHOLE.replace('HEAD', commit)}")
    done = place.shell(merge.replace("git merge", "git merge -s ours"))
    assert sorted(told(done)) == sorted(wanted)


def test_replaced_objects(place: Place) -> None:
    """What refs/replace says of a commit does not count."""
    under_git(place, "")
    committed(place, "a.yml", sealed("old"))
    first = place.shell("git rev-parse HEAD").stdout.strip()
    committed(place, "a.yml", TEXT)
    place.shell("git replace HEAD $(git commit-tree -p HEAD~1 -m x HEAD~1^{tree})")
    for words in (["--since", first], ["--all"]):
        assert any("was a vault" in line for line in told(place.run(HOOK, *words))), words


def test_all(place: Place) -> None:
    """The last change is checked, even that of a merge or of the first commit, and all files for what is wrong in them
    whatever they were before."""
    under_git(place, "*.vault.yml diff=ansible-vault\n")
    names = {"m.vault.yml": TEXT, "group_vars/all/vault.yml": TEXT, "d.yml": block("old")[:-99]}
    for name, content in names.items():
        place.put(name, content)
    damaged, named, unmarked = (
        "d.yml has a damaged value in line 2",
        "group_vars/all/vault.yml is not encrypted, but has the name of a vault",
        "m.vault.yml is not encrypted",
    )
    first = committed(place, "t.yml", b"x: !vault plain\n")
    tagged = "t.yml has plaintext with the tag `!vault` in line 1"
    assert told(place.run(HOOK, "--all")) == [f"{first}: {line}" for line in (damaged, named, unmarked, tagged)]
    fork(place, {"v.yml": sealed("old")}, {"x.txt": b"1\n"}, {"y.txt": b"1\n"})
    wanted = [damaged, unmarked, tagged]
    assert told(place.run(HOOK, "--all")) == wanted, "what is there stays as it is"
    place.shell("git merge -q --no-commit theirs")
    merge = committed(place, "v.yml", TEXT)
    parents = place.shell("git rev-parse HEAD^1 HEAD^2").stdout.split()
    in_merge = WHOLE.replace("HEAD", " or ".join(parent[:10] for parent in parents))
    assert told(place.run(HOOK, "--all")) == [f"{merge}: v.yml {in_merge}", *wanted]

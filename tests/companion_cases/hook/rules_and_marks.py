"""ansible-vault-hook: what it refuses of what is staged, of named files and of commits, also with pre-commit."""

import re
from itertools import product
from typing import NamedTuple

import pytest

from companion_cases import HOOK, TEXT, Done, Place, block, ended, sealed, silent
from companion_cases.repository import GONE, IN_PART, WHOLE, add_and_commit, committed, fork, staged, told, under_git
from companion_cases.repository import with_hooks
from lib.needs import needs
from lib.paths import COMPANIONS, ROOT
from lib.processes import run_text

pytestmark = pytest.mark.usefixtures("git")

ATTRIBUTES = "*.vault.yml diff=ansible-vault\nsecrets/** ansible-vault\n"
PAGE = (ROOT / "man" / f"{HOOK}.1").read_text()


def test_help_has_the_rules_of_the_page() -> None:
    """The rules are the same sentences in the help and in the manual page, which adds to some of them."""
    shown = run_text([str(COMPANIONS[HOOK]), "--help"]).stdout
    rules = [" ".join(rule.split()) for rule in re.findall(r"^ \d\. (.*\n(?:    .*\n)*)", shown, re.MULTILINE)]
    section = PAGE.partition(".Sh RULES\n")[2].partition(".Sh ")[0]
    text = re.sub(r"^\.Ql (.*?)(?: ([,.]))?$", r"`\1`\2", section, flags=re.MULTILINE)
    items = [" ".join(item.split()) for item in text.split(".It\n")[1:]]
    assert len(rules) == len(items) == 6
    assert [rule for rule, item in zip(rules, items) if not item.startswith(rule)] == []


def test_what_is_staged(place: Place) -> None:
    """What is staged counts, not the files in the directory, whatever the current directory and settings of git are."""
    with_hooks(place, ATTRIBUTES)
    place.shell("mkdir inner && git config diff.relative true && git config diff.renames copies")
    place.put("secrets/a.yml", TEXT)
    place.shell("git add -A")
    place.put("secrets/a.yml", sealed("old"))
    assert told(place.run(HOOK, folder="inner")) == ["secrets/a.yml is not encrypted"]
    place.shell("git add -A")
    place.put("secrets/a.yml", TEXT)
    silent("a vault is staged", place.shell("git commit -qm one"))
    assert told(place.shell("git commit -qm two secrets/a.yml")) == [f"secrets/a.yml {WHOLE}"], "a path"
    place.put(".gitattributes", b"")
    place.put("b.vault.yml", TEXT)
    place.shell("git checkout -q secrets && git add -A")
    place.put(".gitattributes", ATTRIBUTES.encode())
    silent("the file is not marked", place.shell("git commit -qm three"))


TEMPLATE = b"{% if x %}\nx: 1\n{% endif %}\n"
# What has no envelope, whatever else it has.
HARMLESS = {
    "a long binary": bytes(range(256)) * 80_000,
    "a long text": b'"user\\u0040example.com \\x41"\n' * 600_000,
    "a deep text": b"x: " + b"[" * 200 + b"]" * 200 + b'\ny: "\\u0041"\n',
    "a template with escapes": TEMPLATE + b'regex: "[\\x41-\\x5a]+"\n',
    "a template with a tag": TEMPLATE + b"# how to use `!vault`\n",
}


@pytest.mark.parametrize("content", HARMLESS.values(), ids=HARMLESS)
def test_no_envelope(place: Place, content: bytes) -> None:
    """What has no header may be new, change, and become short or a pointer of git-lfs, whatever it is."""
    under_git(place, "")
    committed(place, "other.txt", b"x\n")
    pointer = b"version https://git-lfs.github.com/spec/v1\noid sha256:%s\nsize 20000000\n" % (b"0" * 64)
    for version in (content, content + b"# more\n", b"x\n", content, pointer):
        for name in ("a.yml", "a.bin"):
            place.put(name, version)
        place.shell("git add --all")
        silent("the hook", place.run(HOOK))
        place.shell("git commit -qnm one")


LINES = block("old").splitlines(keepends=True)
NO_YAML = "cannot be checked: line 2: it cannot be read as YAML: found a tab character that violates indentation"


class Marked(NamedTuple):
    """What a marked file has, and why it may not, if it may not."""

    content: bytes
    why: str = ""


# In the order of their paths, which is that of the messages. `found_and_replaced_envelopes.py` has other headers.
MARKED = {
    "a vault": Marked(sealed("old").replace(b"\n", b"\r\n")),
    "blank": Marked(b"\n"),
    "comment": Marked(b"# " + sealed("old").replace(b"\n", b"\n# ")),
    "literal": Marked(b"b: !vault |\n  text\n" + block("old"), "has plaintext with the tag `!vault` in line 2"),
    "markers": Marked(b"<<<<<<<<< a\n%b=======\n>>>>>>>>> b\n" % block("old"), "has git's conflict markers"),
    "plain": Marked(TEXT, "is not encrypted"),
    "tab": Marked(b"a: 1\n\tb: 2\n" + block("old"), NO_YAML),
    "text below a block": Marked(block("old") + b" " * 10 + TEXT, "has a damaged value in line 2"),
    "text below": Marked(sealed("old") + TEXT, "is a damaged vault"),
    "text in a block": Marked(b"".join([*LINES[:3], b" " * 10 + TEXT, *LINES[3:]]), "has a damaged value in line 2"),
    "values": Marked(block("old") + b"x: 1\n\n" + block("old", name="b") + b"\n"),
}


def test_marked_content(place: Place) -> None:
    """A marked file needs whole envelopes, without conflict markers or plaintext between them."""
    under_git(place, ATTRIBUTES)
    files = {f"{what}/a.vault.yml": marked.content for what, marked in MARKED.items()}
    assert staged(place, files) == [f"{what}/a.vault.yml {marked.why}" for what, marked in MARKED.items() if marked.why]


def test_git_that_fails(place: Place) -> None:
    """If git cannot read the last commit, there may be one, so nothing passes as the first."""
    under_git(place, "")
    place.put("a.yml", sealed("old"))
    add_and_commit(place)
    place.put("a.yml", TEXT)
    place.shell("git add -A")
    for status in (1, 128):
        place.wrap_tool(f'case "$*" in *rev-parse*HEAD*) exit {status};; esac', "git")
        ended("git fails", place.run(HOOK), 1, f"git rev-parse failed: it ended with status {status}")


def test_pre_commit(place: Place) -> None:
    """The framework runs it in the top directory, with the files of the commit."""
    needs("pre-commit")
    under_git(place, ATTRIBUTES)
    place.put("a.yml", sealed("old"))
    add_and_commit(place)
    source = place.path / "source"
    place.shell(f"mkdir {source} && cp -r {ROOT}/companions {ROOT}/.pre-commit-hooks.yaml {source}")
    place.shell(f"cd {source} && git init -q && git add -A && git commit -qm one")
    place.put("a.yml", TEXT)
    place.put("--all", block("old"))
    place.shell("git add -A")
    framework = ["pre-commit", "try-repo", str(source), "ansible-vault"]
    done = place.run(*framework, PRE_COMMIT_HOME=str(place.path / "pre-commit"))
    ended("plaintext", done, 1, f"{HOOK}: a.yml {WHOLE}\n")


def test_files(place: Place) -> None:
    """Files that the commit does not change are checked if they are named."""
    for words in ([HOOK], [HOOK, "--install"]):
        ended("no repository", place.run(*words), 1, f"{HOOK}: the current directory is not in a git repository")
    under_git(place, ATTRIBUTES)
    names = ["a.vault.yml", "inner/b.vault.yml"]
    for name in (*names, "plain.yml"):
        place.put(name, TEXT)
    add_and_commit(place)
    place.put("c.vault.yml", TEXT)
    place.shell(f"git add c.vault.yml && git update-index --add --cacheinfo 160000,{'1' * 40},submodule")
    lines = [f"{name} is not encrypted" for name in ("c.vault.yml", *names)]
    assert told(place.run(HOOK)) == lines[:1], "what is staged"
    assert told(place.run(HOOK, *names, "plain.yml")) == lines, "files, and what is staged"
    assert told(place.run(HOOK, ".", "../plain.yml", folder="inner")) == [lines[0], lines[2]], "a folder"
    for words in (["nowhere.yml"], ["plain.yml", "*.vault.yml"], ["/etc/hostname"]):
        ended("no file of the index", place.run(HOOK, *words), 1, "git ls-files failed", words[-1])
    for option in (["--all"], ["--since", "HEAD"], ["--install"], ["--uninstall"]):
        ended("an option", place.run(HOOK, *option, "plain.yml"), 2, "FILE cannot be used with an option")


def test_named_links(place: Place) -> None:
    """Links on the way to a named file are followed. A file that is a link has no content of its own."""
    under_git(place, ATTRIBUTES)
    place.put("deep/a.vault.yml", TEXT)
    (place.tree / "deep/b.vault.yml").symlink_to("a.vault.yml")
    (place.tree / "way").symlink_to("deep")
    (place.path / "way").symlink_to("tree/deep")
    add_and_commit(place)
    for folder in ("deep", "way", f"{place.path}/way"):
        done = place.run(HOOK, f"{folder}/a.vault.yml", f"{folder}/b.vault.yml")
        assert told(done) == ["deep/a.vault.yml is not encrypted"], folder


MODES = (0o644, 0o755)


@pytest.mark.parametrize("before, after", product(MODES, MODES))
def test_modes(place: Place, before: int, after: int) -> None:
    """Whether a file may be executed makes no difference to any rule."""
    under_git(place, ATTRIBUTES)
    for name, content in {"gone/x": sealed("old"), "pw": block("old", name="pw"), "v": sealed("old")}.items():
        place.put(name, content, before)
    add_and_commit(place)
    first = place.shell("git rev-parse HEAD").stdout[:10]
    place.shell("git rm -q gone/x")
    for name, content in {"m.vault.yml": TEXT, "new/x": TEXT, "pw": b"pw: plain\n", "v": TEXT}.items():
        place.put(name, content, after)
    place.shell("git add -A")
    unmarked = "m.vault.yml is not encrypted"
    wanted = [unmarked, f"new/x {GONE.format('gone/x')}", f"pw {IN_PART.format('pw')}", f"v {WHOLE}"]
    assert told(place.run(HOOK)) == wanted, "staged"
    place.shell("git commit -qm change")
    last = place.shell("git rev-parse HEAD").stdout[:10]
    in_first = [line.replace("HEAD", first) for line in wanted]
    assert told(place.run(HOOK, "--since", first)) == [f"{last}: {line}" for line in in_first], "a later commit"
    assert told(place.run(HOOK, "--all")) == [f"{last}: {line}" for line in in_first], "the last commit"
    committed(place, "x.txt", TEXT)
    assert told(place.run(HOOK, "--all")) == [unmarked], "a file of the last commit"
    assert told(place.run(HOOK, "m.vault.yml")) == [unmarked], "a file that is named"


# Answers like git since version 2.40, which reads attributes from a commit.
WITH_SOURCE = """
case "$*" in *check-attr*--source=*)
    set -- "$@" END
    while [ "$1" != END ]; do
        case $1 in --source=*) commit=${1#--source=}; set -- "$@" --cached ;; *) set -- "$@" "$1" ;; esac
        shift
    done
    shift
    export GIT_INDEX_FILE="$0.index"
    PATH=${PATH#*:} command git read-tree "$commit" ;;
esac
"""


@pytest.mark.parametrize("version", ["", WITH_SOURCE], ids=["this git", "with --source"])
def test_attributes_of_each_commit(place: Place, version: str) -> None:
    """A commit is judged by its own .gitattributes: a line may go with the next one, and a later one changes nothing,
    whichever branch it is on. What is staged is judged by what is staged."""
    with_hooks(place)
    if version:
        place.wrap_tool(version, "git")
    committed(place, "a.yml", sealed("old"))
    first = committed(place, "b.yml", sealed("old"))
    assert staged(place, {".gitattributes": b"a.yml -ansible-vault\n", "a.yml": TEXT}) == []
    silent("the line comes", place.shell("git commit -qm 1"))
    assert staged(place, {".gitattributes": b"", "x.txt": TEXT}) == []
    silent("the line goes", place.shell(f"git commit -qm 2 && {HOOK} --since {first} && {HOOK} --all"))
    before = place.shell("git rev-parse HEAD").stdout[:10]
    leak = committed(place, "b.yml", TEXT)
    committed(place, ".gitattributes", b"*.yml -ansible-vault\n")
    place.shell(f"git checkout -qb side {first}")
    second = committed(place, "c.yml", sealed("old"))
    other = committed(place, "c.yml", TEXT)
    silent("a merge", place.shell("git checkout -q - && git merge -q --no-edit side"))
    committed(place, ".gitattributes", b"x.txt ansible-vault\n")
    wanted = [f"{leak}: b.yml {WHOLE.replace('HEAD', before)}", f"{other}: c.yml {WHOLE.replace('HEAD', second)}"]
    assert sorted(told(place.run(HOOK, "--since", first))) == sorted(wanted)
    assert told(place.run(HOOK, "--all")) == ["x.txt is not encrypted"], "what is marked now"


def test_long_contents(place: Place) -> None:
    """Of what is longer than any plaintext, only the first word is read, even if git would never end."""
    under_git(place, ATTRIBUTES)
    long = b"x" * (1 << 24)
    vaults = {name: sealed("old") + b"61" * (1 << 23) for name in ("a.yml", "b.yml")}
    assert staged(place, {**vaults, "c.yml": block("old"), "d.vault.yml": vaults["a.yml"], "e.yml": long + b"x"}) == []
    place.shell("git commit -qm vaults")
    fewer = "c.yml has fewer envelopes than in HEAD, and its values cannot be compared: it has over 16,777,216 bytes"
    wanted = [f"a.yml {WHOLE}", fewer, f"d.vault.yml {WHOLE}"]
    files = {name: long + b"x" for name in ("a.yml", "c.yml", "d.vault.yml", "e.yml")}
    assert staged(place, {**files, "b.yml": vaults["b.yml"] + b"\n"}) == wanted
    endless = 'read blob; echo "$blob blob 99999999999"; exec cat /dev/zero'
    place.wrap_tool(f'case "$*" in *cat-file*) {endless} ;; esac', "git")
    assert told(place.run(HOOK)) == ["d.vault.yml is not encrypted"]


def test_leftover(place: Place) -> None:
    """What a companion that is killed has left may be a whole plaintext."""
    under_git(place, "")
    name = "group_vars/.ansible-vault-0_abcxyz.new"
    [line] = staged(place, {name: TEXT})
    assert line == f"{name} is a temporary file of a companion that was killed, and may be plaintext"
    assert staged(place, {".gitattributes": f"/{name} -ansible-vault\n".encode()}) == []


# New files with the names of vaults, and others.
NAMED = [
    "group_vars/all/vault.yml",
    "group_vars/all/vault/db.json",
    "group_vars/vault",
    "host_vars/db.example.org/vault.yaml",
    "inventories/prod/group_vars/db.vault.yml",
    "roles/web/group_vars/a/vault/b/c",
]
NOT_NAMED = [
    "group_vars/all/README.md",
    "group_vars/all/my_vault.yml",
    "group_vars/all/vault.yml.example",
    "group_vars/all/vault/.lint",
    "group_vars/all/vault/notes.txt",
    "group_vars/vaults/a.yml",
    "molecule/default/group_vars/all/vault.yml",
    "roles/vault/tasks/vault.yml",
    "tests/inventory/host_vars/a/vault.yml",
    "vault.yml",
    "vault/group_vars/all.yml",
]


def test_names_of_vaults(place: Place) -> None:
    """A new file that has the name of a vault is encrypted, unless a line allows it. One that is there stays."""
    under_git(place, "group_vars/vault -ansible-vault\n")
    first = committed(place, "x.txt", TEXT)
    named = [name for name in NAMED if name != "group_vars/vault"]
    lines = [f"{name} is not encrypted, but has the name of a vault" for name in named]
    assert staged(place, {name: TEXT for name in (*NAMED, *NOT_NAMED)}) == lines
    last = committed(place, "y.txt", TEXT)
    assert told(place.run(HOOK, "--since", first)) == [f"{last}: {line}" for line in lines]
    assert staged(place, {name: TEXT * 2 for name in NAMED}) == [], "they are there"
    place.shell("git commit -qm change && git mv group_vars/all/vault.yml group_vars/vault.yml")
    assert staged(place, {}) == [], "one is renamed"
    accepted: dict[str, bytes] = {"a": sealed("old"), "b": block("old"), "c.yml": b"# x\n", "d.yml": b"x: '{{ y }}'\n"}
    assert staged(place, {f"group_vars/b/vault/{name}": content for name, content in accepted.items()}) == []


def test_merged_names_of_vaults(place: Place) -> None:
    """What another branch has is not new, and is judged where it was."""
    with_hooks(place)
    fork(place, {"x.txt": TEXT}, {"y.txt": TEXT}, {"z.txt": TEXT})
    place.shell("git checkout -q theirs")
    committed(place, "group_vars/all/vault.yml", TEXT)
    silent("a merge", place.shell(f"git checkout -q - && git merge -q --no-edit theirs && {HOOK} --all"))


# Names that git takes for commits, options or patterns where it may.
LIKE_REVISIONS = ["HEAD", "HEAD~1", "--", "--all", "-x", ":/a", "^HEAD", "*", "refs/heads/x"]


def run_below(place: Place, *words: str) -> Done:
    """Run the hook in a directory without these names, since it refuses an option that is the name of a file."""
    (place.tree / "below").mkdir(exist_ok=True)
    return place.run(HOOK, *words, folder="below")


def test_versions(place: Place) -> None:
    """Any number of versions of a vault is fine, also beside files that are named like commits. What is committed is no
    longer to be committed otherwise, so the advice is another one. A later line does not allow an earlier commit."""
    under_git(place, "")
    for name in LIKE_REVISIONS:
        place.put(name, TEXT)
    first = committed(place, "a.txt", TEXT)
    for text in (b"1", b"2", b"3"):
        committed(place, place.shell("git rev-parse HEAD").stdout.strip(), TEXT)
        committed(place, "a.yml", sealed("old", text))
    lines: list[list[str]] = [[], ["--all"], ["--since", first]]
    for words in lines:
        silent("three versions", run_below(place, *words))
    committed(place, "a.yml", TEXT)
    for words in (["--since=HEAD~1"], ["--all"]):
        done = run_below(place, *words)
        assert len(told(done)) == 1 and "git rebase -i" in done.stderr, done
        assert "this line at the end of .gitattributes: /a.yml -ansible-vault" in done.stderr
    committed(place, ".gitattributes", b"/a.yml -ansible-vault\n")
    silent("the last commit", run_below(place, "--all"))
    assert len(told(run_below(place, "--since", first))) == 1


@pytest.mark.parametrize("name", LIKE_REVISIONS)
def test_names_like_revisions(place: Place, name: str) -> None:
    """A vault of such a name is guarded like any other, in each commit and in what is staged."""
    with_hooks(place)
    first = committed(place, "a.txt", TEXT)
    committed(place, name, sealed("old"))
    silent("a vault", run_below(place, "--since", first))
    assert staged(place, {name: TEXT}) == [f"{name} {WHOLE}"]
    ended("git commit", place.shell("git commit -qm plaintext"), 1, f"{HOOK}: {name} {WHOLE}\n")
    second, last = place.shell("git rev-parse HEAD").stdout[:10], committed(place, name, TEXT)
    for words in (["--all"], ["--since", second]):
        assert told(run_below(place, *words)) == [f"{last}: {name} {WHOLE.replace('HEAD', second)}"]


PAGE = (ROOT / "man" / f"{HOOK}.1").read_text()


# Before a commit and after it, files with their contents; and what the hook says.
EXAMPLES = re.findall(r"\.Bd .*\n(before (?:.*\n)+?)(after (?:.*\n)+?)hook ((?:.*\n)+?)\.Ed", PAGE)


def put_example(place: Place, lines: str) -> None:
    """Write the file of each line, whose first eight characters only say when. Dots stand for an envelope."""
    envelope = sealed("old").replace(b"\n", b"\\n")
    for line in lines.splitlines():
        name, content = re.split("  +", line[8:], maxsplit=1)
        text = content.encode().replace(b"...", b'"%s"' % envelope)
        place.put(name, sealed("old") if content == "a vault" else text)


@pytest.mark.parametrize("before, after, says", EXAMPLES)
def test_examples(place: Place, before: str, after: str, says: str) -> None:
    """The examples of the manual page. A file that is not named again is removed, but for attributes."""
    under_git(place, "")
    put_example(place, before)
    add_and_commit(place)
    place.shell("git rm -q '*.yml'")
    put_example(place, after)
    assert staged(place, {}) == [" ".join(says.split())]
    assert len(EXAMPLES) == PAGE.count("\nhook ") == 2


UNSHALLOW, NOT_PARTIAL = "run `git fetch --unshallow`", "git "
# What makes a clone that lacks something, and what the message says.
LACKING = {"depth=1": UNSHALLOW, "depth=2": UNSHALLOW, "filter=blob:none": NOT_PARTIAL, "filter=tree:0": NOT_PARTIAL}


# What cannot be read as YAML, with a value in plaintext.
UNREADABLE = {
    "an open quote": b'pw: plain\nx: "\n',
    "an open bracket": b"pw: plain\nx: [\n",
    "a statement of Jinja": b"{% if x %}\npw: plain\n{% endif %}\n",
    "a tab": b"pw: plain\nx:\n\ty: 1\n",
}


@pytest.mark.parametrize("text", UNREADABLE.values(), ids=UNREADABLE)
@pytest.mark.parametrize("name", ("a.yml", "a.json", "group_vars/all", "a", "a.txt", "a.j2", "a.py", ".env"))
def test_no_longer_read(place: Place, name: str, text: bytes) -> None:
    """A file that has lost a value must still be readable, whatever its name."""
    under_git(place, "")
    committed(place, name, block("old", name="pw"))
    [line] = staged(place, {name: text})
    assert line.startswith(f"{name} has fewer envelopes than in HEAD, and its values cannot be compared: "), line

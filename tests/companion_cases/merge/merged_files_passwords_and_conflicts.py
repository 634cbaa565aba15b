"""ansible-vault-merge as git runs it. What cannot be merged is a conflict of whole envelopes in the file."""

import itertools
import re
from collections import Counter
from collections.abc import Sequence
from pathlib import Path
from typing import NamedTuple

import pytest

from ansible_vault_companions.envelopes.conflicts import OURS_MARKER, THEIRS_MARKER, join_sides, split_sides
from companion_cases import CONFLICT, FOUND, MERGE, PASSWORDS, Done, Place, block, decrypted, described
from companion_cases import ended, how_to_resolve, run_changed, sealed, silent, versions
from companion_cases.merge.random_merges import Model, Value, common
from companion_cases.repository import BASE, BOTH, OURS, SALTS, THEIRS, fork, repository, set_driver, under_git
from model.vaults import seal, yaml_block

pytestmark = pytest.mark.usefixtures("git")

WHOLE = "not merged, so both sides are whole in the file: "
# Enough lines between two changes for git to take them for two conflicts.
STAYS = b"stays: 1\n" * 5


def both(sides: Sequence[bytes], size: int = 7) -> bytes:
    """Return a conflict of two texts."""
    texts = [side.rstrip() for side in sides]
    return b"%s ours\n%s\n%s\n%s\n%s theirs\n" % (b"<" * size, texts[0], b"=" * size, texts[1], b">" * size)


def values(a: bytes, b: bytes) -> bytes:
    return block("old", a, name="a") + block("old", b, name="b") + b"z: 1\n"


SIDES = (b"base", b"ours", b"theirs")
LINES, QUOTED = b"a: 1\nb: 1\nc: 1\n", b'q: !vault "%s"\n' % sealed("old").replace(b"\n", b"\\n")
# Base, ours and theirs of each file.
FILES = {
    "vault.yml": [sealed("old", text, "prod") for text in (BASE, OURS, THEIRS)],
    "values.yml": [values(b"a", b"b"), values(b"A", b"b"), values(b"a", b"B")],
    "quoted.yml": [LINES, LINES.replace(b"1", b"2", 1), LINES + QUOTED],
    "torn.yml": [sealed("old", b"x: %s\n" % side) for side in SIDES],
    "torn_values.yml": [values(side, b"b") for side in SIDES],
}


def test_branches(place: Place) -> None:
    """Values keep the envelopes of their sides. A single secret decrypts every label."""
    under_git(place, "*.yml merge=ansible-vault\n")
    set_driver(place, *place.by_file("old"))
    fork(place, *({name: each[number] for name, each in FILES.items()} for number in range(3)))
    done = place.shell("git merge --no-edit theirs")
    why = f"{MERGE}: torn.yml: {WHOLE}both sides changed the same or adjacent lines; {how_to_resolve(':/torn.yml')}\n"
    ended("a merge", done, 1, why, f"{MERGE}: torn_values.yml: 1 conflict; {how_to_resolve(':/torn_values.yml')}\n")
    unmerged = place.shell("git diff --name-only --diff-filter=U").stdout
    assert unmerged == "torn.yml\ntorn_values.yml\n", "the other files are merged"
    assert decrypted("old", place.get("vault.yml")) == BOTH, "both changes are in the vault"
    rest = values(b"ours", b"b").removeprefix(block("old", b"ours", name="a"))
    wanted = {
        "values.yml": values(b"A", b"B"),
        "quoted.yml": FILES["quoted.yml"][1] + QUOTED,
        "torn.yml": both(FILES["torn.yml"][1:]),
        "torn_values.yml": both([block("old", side, name="a") for side in SIDES[1:]]) + rest,
    }
    assert {name: place.get(name) for name in wanted} == wanted


OLD = [sealed("old", text) for text in (BASE, OURS, THEIRS)]
# Versions whose lines git would merge, although together they are not YAML.
FIVE = block("old") + b"a: 1\nb: 1\nc: 1\nd: 1\ne: 1\n"
BROKEN = [FIVE, FIVE.replace(b"a: 1", b'a: "1').replace(b"e: 1", b'e: 1"'), FIVE.replace(b"c: 1", b'c: "1"')]
# Versions that are not merged, and why.
REFUSED: dict[str, Sequence[bytes]] = {
    "base: no secret decrypts this vault (label default; ": [sealed("dev2"), *OLD[1:]],
    "theirs: no secret decrypts this vault (label default; ": [*OLD[:2], sealed("dev2", THEIRS)],
    "one side is a vault and the other is not": [OLD[0], OLD[1].rstrip(), THEIRS.rstrip()],
    "the passwords of the two sides differ; CONFLICTS in `man ansible-vault-edit` says how": [
        sealed(name) for name in ("old", "new", "prod2")
    ],
    "git merge-file cannot merge it; it may be binary": [sealed("old", b"\0%d" % number) for number in range(3)],
    # The secret of another label decrypts a side.
    "theirs: its label is prod, but dev@": [sealed("old"), sealed("old", OURS), sealed("dev", THEIRS, "prod")],
    "git can merge its lines, but then line ": BROKEN,
}


@pytest.mark.parametrize("why", REFUSED)
def test_those_that_fail(place: Place, why: str) -> None:
    """Both sides are whole in the file, no other file is left, and the message says why."""
    secrets = [word for name in ("old", "new", "prod2") for word in place.by_file(name)]
    secrets += [*place.by_id("dev", "dev"), *place.by_id("prod", "prod")]
    base, ours, theirs = REFUSED[why]
    done = place.run(MERGE, *secrets, *versions(place, "a.yml", base, ours, theirs))
    assert (done.returncode, done.stdout, done.stderr.count("\n")) == (CONFLICT, "", 1), done
    assert done.stderr.startswith(f"{MERGE}: a.yml: {WHOLE}{why}"), done.stderr
    assert place.files() == {"a.yml": both([ours, theirs])}, "both are whole"


def test_what_fails(place: Place) -> None:
    """There is no secret, the tool fails, or a signal ends the driver. Whatever git does then, both sides are in the
    file, even if an earlier setting gives the size of markers. Without one of the versions, the file stays."""
    words = [*place.by_file("old"), *versions(place, "a.yml", *OLD)]
    ended("no base", place.run(MERGE, *words[:2], "../missing", *words[3:]), 2, "missing: No such file or directory")
    assert place.files() == {"a.yml": OLD[1]}
    for tool, why in {"exit 4": "ansible-vault ended with status 4", "kill -9 $PPID": "", ":": "no password"}.items():
        place.put("a.yml", OLD[1])
        place.wrap_tool(f'[ "$1" != view ] || {tool}')
        done = place.run(MERGE, *(words[2:-1] if tool == ":" else words[:-1]), "9", words[-1])
        ended(tool, done, CONFLICT if why else -9, why)
        assert place.files() == {"a.yml": both(OLD[1:])}, tool
    place.wrap_tool('case " $* " in *" merge-file "*) kill -9 $$;; esac', "git")
    done = place.run(MERGE, *words[:2], *versions(place, "a.yml", *FILES["values.yml"]))
    ended("git is killed", done, CONFLICT, WHOLE)
    assert place.files() == {"a.yml": both(FILES["values.yml"][1:])}


def test_chosen_secret(place: Place) -> None:
    """Text goes under a password that its side did not use only if --encrypt-vault-id names that password's label."""
    secrets = [*place.by_id("dev", "dev"), *place.by_id("prod", "prod"), *place.by_id("prod", "prod2")]
    vaults = [sealed(name, text, name) for name, text in zip(("dev", "dev", "prod"), (BASE, OURS, THEIRS))]
    words = [*secrets, *versions(place, "a.yml", *vaults)]
    done = place.run(MERGE, "--encrypt-vault-id", "x", *words)
    ended("no label", done, CONFLICT, "no password has the label x, only dev, prod, prod")
    place.put("a.yml", vaults[1])
    # Without the second one of the label.
    silent("prod", place.run(MERGE, "--encrypt-vault-id", "prod", *secrets[:4], *versions(place, "a.yml", *vaults)))
    assert decrypted("prod", place.get("a.yml")) == BOTH
    one_label = [sealed(name, text, "prod") for name, text in zip(("prod", "prod", "dev"), (BASE, OURS, THEIRS))]
    done = place.run(MERGE, "--any-label", *secrets, *versions(place, "c.yml", *one_label))
    ended("another's password", done, CONFLICT, "the passwords of the two sides differ")
    same = [block(name, b"new", "prod", name="a") for name in ("prod", "prod2")]
    words = [*secrets, *versions(place, "b.yml", b"", *same)]
    ended("two passwords of a value", place.run(MERGE, *words), CONFLICT, "b.yml: 1 conflict")
    place.put("b.yml", same[0])
    why = "have the label prod; name only the password to encrypt with"
    ended("neither is chosen", place.run(MERGE, "--encrypt-vault-id", "prod", *words), CONFLICT, why)


@pytest.mark.parametrize("is_theirs", [False, True], ids=["ours", "theirs"])
def test_label_alone(place: Place, is_theirs: bool) -> None:
    """A value that only gets a label on one side has it afterwards, under the same password. If the other side changed
    its text, there is a conflict."""
    head = b"port: %d\nuser: a\nhost: b\n"
    old, labeled = block("old", b"a", name="a"), block("old", b"a", "prod", name="a")
    changed = block("old", b"b", name="a")

    def merge(other: bytes) -> Done:
        sides = [other, head % 1 + labeled] if is_theirs else [head % 1 + labeled, other]
        return place.run(MERGE, *place.by_file("old"), *versions(place, "a.yml", head % 1 + old, *sides))

    silent("another line", merge(head % 2 + old))
    assert place.get("a.yml") == head % 2 + labeled
    ended("its text", merge(head % 1 + changed), CONFLICT, "1 conflict; ")


def test_chosen_label(place: Place) -> None:
    """A vault that another label's password decrypts is not merged, even if its own label is chosen."""
    secrets = [*place.by_id("dev", "dev"), *place.by_id("prod", "prod"), "--encrypt-vault-id", "prod"]
    vaults = [sealed("prod", BASE, "prod"), sealed("prod", OURS, "prod"), sealed("dev", THEIRS, "prod")]
    done = place.run(MERGE, *secrets, *versions(place, "a.yml", *vaults))
    ended("theirs", done, CONFLICT, "theirs: its label is prod, but dev@")


FALSE_LABEL = [seal(PASSWORDS["dev"], text, b"prod", salt) for text, salt in zip((b"a", b"b", b"b"), SALTS)]


def test_any_label(place: Place) -> None:
    """The option accepts a password with another label than the vault or the value, which keeps its own."""
    secrets = [*place.by_id("dev", "dev"), *place.by_id("prod", "prod")]
    vaults = [sealed("dev", text, "prod") for text in (BASE, OURS, THEIRS)]
    # Both sides have changed it to the same text.
    files = {"vault.yml": vaults, "value.yml": [yaml_block(envelope, b"a") for envelope in FALSE_LABEL]}
    whys = {
        "vault.yml": "its label is prod, but dev@",
        "value.yml": "value.yml: 1 conflict; its label is prod, but dev@",
    }
    for name, contents in files.items():
        words = [*secrets, *versions(place, name, *contents)]
        ended("without it", place.run(MERGE, *words), CONFLICT, whys[name])
        place.put(name, contents[1])
        silent("with it", place.run(MERGE, "--any-label", *words))
    assert described(place.get("vault.yml")) == (b"$ANSIBLE_VAULT;1.2;AES256;prod", ("dev", BOTH)), "the vault"
    assert described(place.get("value.yml")) == (b"$ANSIBLE_VAULT;1.2;AES256;prod", ("dev", b"b")), "the value"


def test_wrong_password(place: Place) -> None:
    """A conflict of values that no password decrypts says so. One of other lines does not."""
    a, b, c = (block("new", text, name="a") for text in (b"a", b"b", b"c"))
    words = versions(place, "values.yml", a, b, c)
    why = "values.yml: 1 conflict; no secret decrypts this vault (label default; tried "
    ended("values", place.run(MERGE, *place.by_file("old"), *words), CONFLICT, why)
    words = versions(place, "lines.yml", b"x: 1\n" + STAYS + a, b"x: 2\n" + STAYS + b, b"x: 3\n" + STAYS + a)
    done = place.run(MERGE, *place.by_file("old"), *words)
    ended("lines", done, CONFLICT, f"lines.yml: 1 conflict; {how_to_resolve(':/lines.yml')}\n")


class Chosen(NamedTuple):
    """The label of two values, their passwords in each version, and in the result; empty if there is a conflict."""

    label: str
    base: list[str]
    ours: list[str]
    theirs: list[str]
    result: list[str]


MIXED = ["prod", "prod2"]
CHOSEN = {
    "two rotations": Chosen("prod", ["old"] * 2, ["prod"] * 2, ["prod2"] * 2, result=["prod"] * 2),
    "two rotations, reversed": Chosen("prod", ["old"] * 2, ["prod2"] * 2, ["prod"] * 2, result=["prod"] * 2),
    "two rotations of another label": Chosen("dev", ["old"] * 2, ["prod"] * 2, ["prod2"] * 2, result=[]),
    # The new password has another label, so it is no rotation.
    "another label on one side": Chosen("prod", ["prod"] * 2, ["prod"] * 2, ["prod2"] * 2, result=["prod"] * 2),
    "two passwords of both sides": Chosen("prod", MIXED, MIXED, MIXED, result=MIXED),
    "one password of both sides": Chosen("prod", ["prod2"] * 2, ["prod2"] * 2, ["prod2"] * 2, result=["prod2"] * 2),
}


@pytest.mark.parametrize("row", CHOSEN.values(), ids=CHOSEN)
def test_chosen_secret_of_values(place: Place, row: Chosen) -> None:
    """The option counts for values with its label alone, and only if the sides have different passwords."""
    texts_of = {"base": (b"a", b"b"), "ours": (b"A", b"b"), "theirs": (b"a", b"B")}
    contents = []
    for side, passwords in zip(texts_of, (row.base, row.ours, row.theirs)):
        first, second = (
            block(password, text, row.label, name)
            for password, text, name in zip(passwords, texts_of[side], ("first", "second"))
        )
        contents.append(first + STAYS + second)
    # Other labels of the passwords, so that each is the only one of its label.
    secrets = [word for name in ("old", "prod", "prod2") for word in place.by_id(name, name)]
    words = ["--any-label", "--encrypt-vault-id", "prod", *secrets, *versions(place, "a.yml", *contents)]
    done = place.run(MERGE, *words)
    if not row.result:
        ended("the merge", done, CONFLICT, "a.yml: 2 conflicts; ")
        return
    silent("the merge", done)
    header = f"$ANSIBLE_VAULT;1.2;AES256;{row.label}".encode()
    wanted = [(header, (password, text)) for password, text in zip(row.result, (b"A", b"B"))]
    found = [described(part) for part in place.get("a.yml").split(STAYS)]
    assert found == wanted, "the labels, the passwords and the texts"


# The passwords of a vault in each version, by that of the result.
AGREED = {"prod": ["prod", "prod", "prod"], "prod2": ["prod", "prod2", "prod"], "new": ["prod", "prod", "new"]}


@pytest.mark.parametrize("password", AGREED)
def test_chosen_secret_of_no_use(place: Place, password: str) -> None:
    """The option does not count for a vault of which both sides have one password, or one side has rotated it."""
    secrets = [word for name in ("prod", "prod2", "new") for word in place.by_id("prod", name)]
    vaults = [sealed(name, text, "prod") for name, text in zip(AGREED[password], (BASE, OURS, THEIRS))]
    words = [*secrets, *place.by_id("dev", "dev"), *versions(place, "a.yml", *vaults)]
    silent("the merge", place.run(MERGE, "--encrypt-vault-id", "dev", *words))
    assert described(place.get("a.yml")) == (b"$ANSIBLE_VAULT;1.2;AES256;prod", (password, BOTH)), "what is merged"


def test_plaintext_as_base(place: Place) -> None:
    """Both sides have encrypted the file since then."""
    words = versions(place, "a.yml", BASE, sealed("old", OURS), sealed("old", THEIRS))
    silent("the merge", place.run(MERGE, *place.by_file("old"), *words))
    assert decrypted("old", place.get("a.yml")) == BOTH, "both changes are in the vault"


@pytest.mark.parametrize("texts", itertools.product((b"", b"a", b"a\n", b"a\r\n", b"a\r\nb"), repeat=2), ids=repr)
def test_both_sides(texts: tuple[bytes, bytes]) -> None:
    """A conflict of two whole files has every byte of them, and the line ends of ours. An empty one has no line."""
    joined = join_sides(*texts)
    end = b"\r\n" if b"\r\n" in texts[0] else b"\n"
    ours, theirs = (text if text[-1:] in (b"", b"\n") else text + end for text in texts)
    assert joined == b"<<<<<<< ours%s%s=======%s%s>>>>>>> theirs%s" % (end, ours, end, theirs, end)
    assert split_sides(joined) == {OURS_MARKER: ours, THEIRS_MARKER: theirs}, "what an edit takes for the sides"


class Layout(NamedTuple):
    """The lines of a value, where %s is for its envelope, the bytes in each of its lines, and those around all."""

    value: bytes
    margin: bytes = b""
    end: bytes = b"\n"
    before: bytes = b""
    after: bytes = b"z: 1\n"

    def lay_out(self, envelope: bytes) -> bytes:
        lines = (self.margin + line for line in envelope.splitlines())
        return self.value % self.end.join(lines)

    def file(self, envelope: bytes) -> bytes:
        return self.before + self.lay_out(envelope) + self.after


LAYOUTS = {
    "a block": Layout(b"a: !vault |\n%s\n", b"          "),
    "a block further left": Layout(b"a: !vault |-\n%s\n", b" "),
    "an item": Layout(b"- !vault |\n%s\n", b"          ", before=b"l:\n"),
    "other line ends": Layout(b"a: !vault |\r\n%s\r\n", b"   ", b"\r\n", after=b"z: 1\r\n"),
    "quotes": Layout(b'a: !vault "%s\\n"\n', end=b"\\n"),
    "JSON": Layout(b'"a": {"__ansible_vault": "%s\\n"},\n', end=b"\\n", before=b"{\n", after=b'"z": 1\n}\n'),
    "a comment": Layout(b"%s\n", b"  # "),
    "a comment with a tab": Layout(b"%s\n", b"\t#"),
    "a script": Layout(b"%s\n", before=b"cat <<END\n", after=b"END\n"),
}


@pytest.mark.parametrize("layout", LAYOUTS.values(), ids=LAYOUTS)
def test_layouts(place: Place, layout: Layout) -> None:
    """Wherever an envelope is, one with a side's change and the other side's new password takes its place, and two
    changes are a conflict of the whole envelopes."""
    base, ours, theirs, rotated = (
        sealed(*each) for each in (("old", b"base"), ("old", b"ours"), ("old", b"theirs"), ("new", b"base"))
    )
    secrets = [*place.by_file("old"), *place.by_file("new")]
    words = versions(place, "a.yml", *(layout.file(each) for each in (base, ours, rotated)))
    silent("a change and a rotation", place.run(MERGE, *secrets, *words))
    after = place.get("a.yml")
    [found] = re.findall(rb"\$ANSIBLE_VAULT;1\.1;AES256(?:(?:\\n|[\s#])+[0-9a-f]+)+", after)
    envelope = b"".join(line + b"\n" for line in re.split(rb"[\s#]+", found.replace(b"\\n", b"\n")))
    assert decrypted("new", envelope) == b"ours", "the text of a side under the password of the other one"
    assert after == layout.file(envelope), "it is where the old one was"
    words = versions(place, "b.yml", *(layout.file(each) for each in (base, ours, theirs)))
    ended("two changes", place.run(MERGE, *secrets, *words), CONFLICT, "b.yml: 1 conflict; ")
    end = b"\r\n" if layout.end == b"\r\n" else b"\n"
    sides = (layout.lay_out(ours), end, layout.lay_out(theirs))
    conflict = b"<<<<<<< ours%s%s=======%s%s>>>>>>> theirs%s" % (end, *sides, end)
    assert place.get("b.yml") == layout.before + conflict + layout.after, "both are whole"


# Those in lines of their own, which other values may follow at once.
IN_LINES = [what for what in LAYOUTS if LAYOUTS[what].end != b"\\n"]


@pytest.mark.parametrize("what", IN_LINES)
def test_neighbours(place: Place, what: str) -> None:
    """Each side changes one of two values, with no line between them."""
    layout = LAYOUTS[what]
    values = [
        [layout.lay_out(sealed("old", text)) for text in pair] for pair in ((b"1", b"1"), (b"2", b"1"), (b"1", b"2"))
    ]
    contents = [layout.before + first + second + layout.after for first, second in values]
    silent("the merge", place.run(MERGE, *place.by_file("old"), *versions(place, "a.yml", *contents)))
    both_changes = layout.lay_out(sealed("old", b"2")) * 2
    assert place.get("a.yml") == layout.before + both_changes + layout.after, "both changes"


# Ways to write one value.
WRITTEN = {
    "a block": block("old", b"x", name="a"),
    "a comment": block("old", b"x", name="a").replace(b"|", b"|  # why"),
    "an indicator": block("old", b"x", name="a").replace(b"|", b"|-"),
    "an anchor": block("old", b"x", name="a").replace(b"!vault", b"&b !vault"),
    "another tag": block("old", b"x", name="a").replace(b"!vault", b"!vault-encrypted"),
    "further left": block("old", b"x", name="a").replace(b" " * 10, b"  "),
    "quotes": b'a: !vault "%s"\n' % sealed("old", b"x").replace(b"\n", b"\\n"),
    "other line ends": block("old", b"x", name="a").replace(b"\n", b"\r\n"),
    "an empty line below": block("old", b"x", name="a") + b"\n",
}


@pytest.mark.parametrize("what", [what for what in WRITTEN if what != "a block"])
def test_written_otherwise(place: Place, what: str) -> None:
    """A side may only write a value otherwise. That is a change, and the other side's are merged with it."""
    for before, after in itertools.permutations((WRITTEN["a block"], WRITTEN[what])):
        contents = [value + STAYS + block("old", text, name="b") for value, text in ((before, b"1"), (before, b"2"))]
        for ours, theirs in itertools.permutations((after + contents[0].removeprefix(before), contents[1])):
            words = [*place.by_file("old"), *versions(place, "a.yml", contents[0], ours, theirs)]
            silent(what, place.run(MERGE, *words))
            assert place.get("a.yml") == after + contents[1].removeprefix(before), "both changes"


# What keeps ours from being replaced, and why.
KEPT = {
    "a directory": ("chmod 555 folder", "folder/a.yml: {}/folder: Permission denied"),
    "hard links": ("ln folder/a.yml folder/b.yml; chmod 777 folder", "folder/a.yml: it has 2 names (hard links)"),
    "a directory in its place": ("rm folder/a.yml; mkdir folder/a.yml", "folder/a.yml: Is a directory"),
}


@pytest.mark.parametrize("line, why", KEPT.values(), ids=KEPT)
def test_ours_that_stays(place: Place, line: str, why: str) -> None:
    """If our version cannot be replaced, all stays, and so git has no conflict to leave in the file."""
    words = [*place.by_file("old"), *versions(place, "folder/a.yml", *OLD)]
    place.shell(line)
    before = place.files()
    done = place.as_nobody(MERGE, *words)
    assert (done.returncode, done.stdout) == (2, ""), done
    assert done.stderr.startswith(f"{MERGE}: {why.format(place.tree)}"), "the reason"
    assert place.files() == before, "all stays"


def test_refused_call(place: Place) -> None:
    """If the system refuses something once the versions are read, both of them are whole in the file."""
    change = """
make = os.memfd_create
def fail(name):
    if name == "version":
        raise OSError(24, "Too many open files")
    return make(name)
os.memfd_create = fail
"""
    done = run_changed(place, MERGE, change, [*place.by_file("old"), *versions(place, "a.yml", *OLD)])
    ended("the merge", done, CONFLICT, f"{MERGE}: a.yml: {WHOLE}Too many open files; {how_to_resolve(':/a.yml')}\n")
    assert place.files() == {"a.yml": both(OLD[1:])}, "both are whole"


def test_conflict_as_base(tmp_path: Path, monkeypatch: pytest.MonkeyPatch) -> None:
    """In a crossed history, the base is a merge of bases and may be a conflict, and then counts as none. Where git
    reuses a resolution, ours is that conflict, too."""
    monkeypatch.chdir(repository(tmp_path, "merge"))
    lines = b"0: 1\n1: 1\n2: 1\n%s3: 1\n4: 1\n5: 1\n"
    ours, theirs = (lines.replace(*change) % b"x: both\n" for change in ((b"0: 1", b"0: I"), (b"5: 1", b"5: I")))
    base = both([sealed("old", lines % b"x: ours\n"), sealed("old", lines % b"x: theirs\n")], 9)
    merged = Model().merged([base, sealed("old", ours), sealed("old", theirs)])
    assert merged.content == both([sealed("old", ours), sealed("old", theirs)]) and merged.why
    assert Model().merged([base, base, sealed("old", ours)]).content == sealed("old", ours)
    value, base = block("old"), lines % both([b"x: ours\n", b"x: theirs\n"], 9)
    merged = Model().merged([base + value, ours + value, theirs + value])
    assert merged.why == "2 conflicts", "the values conflict one by one"
    assert merged.content.count(b"<<<<<<< ours") == 2, "each is marked"


# Lines like a marker, and the versions that have one: base, ours and theirs.
LIKE_MARKERS = [b"<<<<<<<\n", b"||||||| a\n", b"=======\n", b">>>>>>> b\n"]
HAVE_ONE = {"all": (1, 1, 1), "ours": (0, 1, 0), "theirs": (0, 0, 1)}


@pytest.mark.parametrize("line", LIKE_MARKERS, ids=repr)
@pytest.mark.parametrize("have_one", HAVE_ONE.values(), ids=HAVE_ONE)
def test_lines_like_markers(
    line: bytes, have_one: tuple[int, ...], tmp_path: Path, monkeypatch: pytest.MonkeyPatch
) -> None:
    """Where a line looks like a marker, such as that below a title, nobody can tell the sides of a conflict apart. So
    both sides are whole."""
    monkeypatch.chdir(repository(tmp_path, "merge"))
    contents = [b"x\n" + line * count + block("old", side, name="a") for side, count in zip(SIDES, have_one)]
    merged = Model().merged(contents)
    assert merged.why == f"{WHOLE}it has lines that look like git's conflict markers"
    assert merged.content == both(contents[1:]), "both are whole"


def test_copies(place: Place) -> None:
    """Where a side has rotated, what the other one adds gets the new password: each of its envelopes once, however
    many copies of it there are. Those that differ still do."""
    first, second = (seal(PASSWORDS["old"], b"text", b"", salt) for salt in SALTS[:2])
    added = b"".join(yaml_block((first, second)[n % 3 == 0], b"k%d" % n) for n in range(30))
    contents = block("old"), block("old") + added, block("new")
    words = [*place.by_file("old"), *place.by_file("new"), *versions(place, "a.yml", *contents)]
    place.wrap_tool('echo "$1" >> ../runs')
    silent("the merge", place.run(MERGE, *words))
    found = FOUND.findall(place.get("a.yml"))
    assert found.pop(0) in block("new") and len(found) == 30
    assert {decrypted("new", each.replace(b" ", b"") + b"\n") for each in found} == {b"text"}
    assert [each == found[0] for each in found] == [n % 3 == 0 for n in range(30)], "the same are copies"
    assert len({*found}) == 2 and place.get("../runs").decode().split().count("encrypt") == 2


def test_many_conflicts(place: Place) -> None:
    """git does not count more than 127 conflicts."""
    base, ours, theirs = (
        b"".join(b"k%d: %s\n%s" % (n, text, STAYS) for n in range(300)) for text in (b"a", b"b", b"c")
    )
    value = block("dev", b"new", "dev")
    words = [*place.by_id("dev", "dev"), *versions(place, "a.yml", *(value + text for text in (base, ours, theirs)))]
    ended("300 conflicts", place.run(MERGE, *words), CONFLICT, "a.yml: 127 conflicts or more")
    assert place.get("a.yml").count(b"<<<<<<<") == 300


# Vaults by their labels and passwords.
VAULTS = [("prod", name) for name in ("prod", "prod2", "dev")] + [("dev", "dev")]
VAULTS += [("", name) for name in ("prod", "prod2", "dev", "old", "new")]


def check_secret(before: Value, ours: Value, theirs: Value, text: bytes) -> str | None:
    """Check that a merge has this text under the secret of the change, or is refused. Return the secret."""
    case = f"the merge of {before}, {ours} and {theirs}"
    contents = [each.envelope() for each in (before, ours, theirs)]
    tool = Model()
    result = tool.merged(contents)
    secrets: list[set[str | None]] = [{f"{each.label}@{each.password}"} for each in (before, ours, theirs)]
    secret = common(*secrets)
    is_clear = ours.label == theirs.label and not (ours.is_mislabelled() or theirs.is_mislabelled())
    if not (secret and is_clear):
        assert result.why, f"it is refused: {case}"
        assert result.content == both(contents[1:]), f"both sides are whole: {case}"
        return None
    opened = tool.opened(result.content)
    assert result.why == "", f"it is merged: {case}"
    assert opened.password.source.place == secret.partition("@")[2], f"its password: {case}"
    assert opened.plaintext == text, f"its text: {case}"
    return secret


def test_secrets_of_vaults(tmp_path: Path, monkeypatch: pytest.MonkeyPatch) -> None:
    """A text is encrypted with the password of its side, or if all versions have one label, with the changed one."""
    monkeypatch.chdir(repository(tmp_path, "diff3"))
    counts: Counter[str] = Counter()
    # Both sides change the text, or one of them.
    changes = {(BASE, OURS, THEIRS): BOTH, (BASE, OURS, BASE): OURS, (BASE, BASE, THEIRS): THEIRS}
    for texts, vaults in itertools.product(changes, itertools.product(VAULTS, repeat=3)):
        rows = enumerate(zip(texts, vaults))
        before, ours, theirs = (Value("", text, *vault, number, 0) for number, (text, vault) in rows)
        if not check_secret(before, ours, theirs, changes[texts]):
            counts["refused"] += 1
        elif ours.password != theirs.password:
            counts["under a new secret"] += 1
    assert counts["refused"] > 10 and counts["under a new secret"] == 24, counts

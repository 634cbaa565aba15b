"""ansible-vault-edit shows both sides of a file with git's conflict markers, and saves one envelope. So does
ansible-vault-textconv, and `git diff` shows what they differ in."""

import pytest

from companion_cases import (
    PASSWORDS,
    TEXT,
    TEXTCONV,
    Place,
    block,
    decrypted,
    edit,
    ended,
    line_of_values,
    sealed,
    texts,
)
from companion_cases.repository import SALTS, fork, set_driver, under_git
from lib.needs import needs_pyyaml
from model.vaults import seal, yaml_block

pytestmark = pytest.mark.usefixtures("git")

TAKE_THEIRS = "sed -i '/^<<<<<<</,/^=======/d; /^>>>>>>>/d' \"$1\""
STILL = "it still has git's conflict markers"
LINES = b"1\n2\n=======\n4\n5\n"
SIDES = [LINES, b"x: ours\n" + LINES + b"y: ours\n", b"x: theirs\n" + LINES]


def merge(place: Place, contents: list[bytes], *options: str) -> bytes:
    """Merge two branches of one file, without a driver, and return the conflict."""
    under_git(place, "")
    fork(place, *({"a.yml": content} for content in contents))
    ended("git", place.run("git", *options, "merge", "theirs"), 1, "Merge conflict in a.yml")
    return place.get("a.yml")


@pytest.mark.parametrize("style, end", (("merge", b"\r\n"), ("diff3", b"\n")))
def test_vaults(place: Place, style: str, end: bytes) -> None:
    """What git merges in the plaintexts needs no choice, and the vault of a side is kept if its text is chosen."""
    vaults = [sealed("old", text).replace(b"\n", end) for text in SIDES]
    before = merge(place, vaults, "-c", f"merge.conflictStyle={style}")
    words = [*place.by_file("old"), "a.yml"]
    ended("no choice", edit(place, 'cp "$1" ../seen', *words), 1, STILL)
    seen = place.get("../seen")
    assert seen.startswith(b"<<<<<<< ") and seen.count(b"x: ours\n") == seen.count(b"x: theirs\n") == 1, "the conflict"
    assert seen.endswith(b"\n" + LINES + b"y: ours\n"), "what is merged is below it"
    assert place.get("a.yml") == before, "the file stays"
    ended("a marker", edit(place, "sed -i '/^<<<<<<< /d; /^>>>>>>> /d' \"$1\"", *words), 1, STILL)
    assert len(place.kept()) == 1, "what was saved is kept"
    edit(place, "true", "--discard", "a.yml")
    assert place.get("a.yml") == before, "the file stays"
    texts = {TAKE_THEIRS: b"x: theirs\n" + LINES + b"y: ours\n", f"printf '{SIDES[1].decode()}' > \"$1\"": SIDES[1]}
    for editor, text in texts.items():
        place.put("a.yml", before)
        ended(editor, edit(place, editor, *words), 0)
        assert decrypted("old", place.get("a.yml").replace(b"\r", b"")) == text
    assert place.get("a.yml") == vaults[1], "the vault of a side is kept"


LONG = b"%s ours\n%s%s\n%s%s theirs\n" % (b"<" * 15, block("old"), b"=" * 15, block("new"), b">" * 15)
HALF = sealed("old").replace(b"\n", b"\n<<<<<<< ours\n", 1)


@pytest.mark.parametrize("before", (LONG, HALF), ids=("long markers", "half a conflict in a vault"))
def test_no_whole_conflict(place: Place, before: bytes) -> None:
    """An edit refuses a conflict whose markers have another size, which an attribute may give them, or are not all
    there."""
    needs_pyyaml()
    place.put("a.yml", before)
    why = "no whole conflict between markers of seven characters; take a side with `git checkout`"
    ended("edit", edit(place, "touch ../started", *place.by_file("old"), "a.yml"), 1, why)
    assert not (place.path / "started").exists(), "no editor is started"
    assert place.get("a.yml") == before, "the file stays"


# Lines like a marker, which the text of either side has by itself.
LIKE_MARKERS = [b"<<<<<<< x\n", b"||||||| x\n", b"=======\n", b">>>>>>> x\n"]


@pytest.mark.parametrize("line", LIKE_MARKERS, ids=repr)
@pytest.mark.parametrize("number", (0, 1), ids=("ours", "theirs"))
def test_lines_like_markers(place: Place, line: bytes, number: int) -> None:
    """A line that one of the sides has is no marker that is left."""
    sides = [b"x: ours\n", b"x: theirs\n"]
    sides[number] += line + b"y: 1\n"
    place.put("a.yml", both(*(sealed("old", side) for side in sides)))
    place.put("../chosen", sides[number])
    ended("the edit", edit(place, 'cp ../chosen "$1"', *place.by_file("old"), "a.yml"), 0)
    assert place.get("a.yml") == sealed("old", sides[number]), "the vault of the side"


def both(ours: bytes, theirs: bytes) -> bytes:
    """Return a conflict of two files."""
    return b"<<<<<<< ours\n%s=======\n%s>>>>>>> theirs\n" % (ours, theirs)


@pytest.mark.parametrize("sides", ((block("old"), b""), (b"", block("old"))), ids=("ours", "theirs"))
def test_one_empty_side(place: Place, sides: tuple[bytes, bytes]) -> None:
    """A value that one of the sides has removed, with all else, is shown between the markers until one is chosen."""
    needs_pyyaml()
    before, words = both(*sides), [*place.by_file("old"), "a.yml"]
    place.put("a.yml", before)
    ended("no choice", edit(place, 'cp "$1" ../seen', *words), 1, STILL)
    shown = b"secret: !vault |\n  %s" % TEXT
    assert place.get("../seen") == both(*(shown if side else b"" for side in sides)), "what the editor shows"
    assert place.get("a.yml") == before, "the file stays"
    ended("a choice", edit(place, "sed -i '/^[<=>]\\{7\\}/d' \"$1\"", *words), 0)
    assert place.get("a.yml") == block("old"), "the value keeps its envelope"


@pytest.mark.parametrize("sides", ((sealed("old"), TEXT), (TEXT, sealed("old"))), ids=("ours", "theirs"))
def test_one_vault(place: Place, sides: tuple[bytes, bytes]) -> None:
    """If only one of the sides is a vault, git is to take one."""
    place.put("a.yml", both(*sides))
    done = edit(place, "touch ../started", *place.by_file("old"), "a.yml")
    ended("the edit", done, 1, "one side is a vault and the other is not; take one side with `git checkout --ours -- ")
    assert not (place.path / "started").exists(), "no editor is started"
    assert place.get("a.yml") == both(*sides), "the file stays"


def test_merged_texts(place: Place) -> None:
    """Two vaults whose texts git can merge become one, even if the editor changes nothing."""
    merge(place, [sealed("old", text) for text in (LINES, b"x: ours\n" + LINES, LINES + b"y: theirs\n")])
    ended("no change", edit(place, "true", *place.by_file("old"), "a.yml"), 0)
    assert decrypted("old", place.get("a.yml")) == b"x: ours\n" + LINES + b"y: theirs\n"


def test_merged_values(place: Place) -> None:
    """Where the sides have one text in two envelopes, nothing is left to choose, even if the editor changes nothing."""
    needs_pyyaml()
    sides = [yaml_block(seal(PASSWORDS["old"], b"one text", b"", salt), b"secret") for salt in SALTS[:2]]
    merge(place, [block("old"), *sides])
    ended("no change", edit(place, 'cp "$1" ../seen', *place.by_file("old"), "a.yml"), 0)
    assert place.get("../seen") == b"secret: !vault |-\n  one text\n", "what the editor shows"
    assert place.get("a.yml") == sides[0], "the value of a side"


def test_other_passwords(place: Place) -> None:
    """A text gets a password that its side did not use only if the user names it in this very command."""
    before = merge(place, [sealed("old"), sealed("dev", b"ours\n", "dev"), sealed("prod", b"theirs\n", "prod")])
    words = [*place.by_id("dev", "dev"), *place.by_id("prod", "prod"), "a.yml"]
    why = "the labels differ: dev in ours, prod in theirs; choose one with --encrypt-vault-id"
    for label in ("", "prod"):
        ended("unclear", edit(place, "touch ../started", *words, ANSIBLE_VAULT_ENCRYPT_IDENTITY=label), 1, why)
    assert not (place.path / "started").exists(), "no editor is started"
    assert place.get("a.yml") == before, "the file stays"
    ended("it is chosen", edit(place, TAKE_THEIRS, "--encrypt-vault-id", "prod", *words), 0)
    assert decrypted("prod", place.get("a.yml")) == b"theirs\n"


def test_values_of_other_passwords(place: Place) -> None:
    """So does a new text of a value. One that is taken keeps its envelope, without a question."""
    needs_pyyaml()
    sides = [block("dev", b"ours", "dev"), block("prod", b"theirs", "prod")]
    before = merge(place, [block("old", b"base"), *sides])
    words = [*place.by_id("dev", "dev"), *place.by_id("prod", "prod"), "a.yml"]
    both = f'{TAKE_THEIRS}; sed -i s/theirs/both/ "$1"'
    for label in ("", "prod"):
        done = edit(place, both, *words, ANSIBLE_VAULT_ENCRYPT_IDENTITY=label)
        ended("unclear", done, 1, "secret has different passwords in the two sides; choose one with --encrypt-vault-id")
        assert place.get("a.yml") == before, "the file stays"
    done = edit(place, both, "--encrypt-vault-id", "prod", *words)
    ended("it is chosen", done, 0, "encrypted secret (label prod)\n")
    assert texts(place.get("a.yml"), "prod") == [b"both"]
    place.put("a.yml", before)
    ended("theirs", edit(place, TAKE_THEIRS, *words), 0)
    assert place.get("a.yml") == sides[1], "it keeps its envelope"


@pytest.mark.parametrize("is_theirs", [False, True], ids=["ours", "theirs"])
def test_envelope_of_one_side(place: Place, is_theirs: bool) -> None:
    """Where one side has encrypted a text again, as a rotation does, that envelope stays, whichever side is taken."""
    needs_pyyaml()
    old, new = (yaml_block(seal(PASSWORDS["old"], TEXT, b"", salt), b"first") for salt in SALTS[:2])
    values = {b"base": old, b"ours": old if is_theirs else new, b"theirs": new if is_theirs else old}
    before = merge(place, [first + b"port: %s\n" % port for port, first in values.items()])
    assert old.splitlines()[-1] in before and new.splitlines()[-1] in before, "both are in the conflict"
    ended("theirs", edit(place, TAKE_THEIRS, *place.by_file("old"), "a.yml"), 0)
    assert place.get("a.yml") == new + b"port: theirs\n"


WITHOUT_BASE = ["git add a.yml", "git add a.yml; git config merge.conflictStyle diff3", "cp ../whole a.yml"]


@pytest.mark.parametrize("command", ("true", *WITHOUT_BASE))
def test_values(place: Place, command: str) -> None:
    """Both texts of a value are shown, even if git's markers are between its digits, or the index has no base. The one
    that is taken keeps its envelope, and a new text its password."""
    needs_pyyaml()
    files = [b"a: 1\n" + block("old", text) + b"z: 1\n" for text in (b"base", b"ours", b"theirs")]
    merge(place, files)
    sides = [file.removesuffix(b"z: 1\n") for file in files[1:]]
    place.put("../whole", b"<<<<<<< ours\n%s=======\n%s>>>>>>> theirs\nz: 1\n" % (*sides,))
    place.shell(command)
    before, words = place.get("a.yml"), [*place.by_file("old"), "a.yml"]
    ended("no choice", edit(place, 'cp "$1" ../seen', *words), 1, STILL)
    lines = place.get("../seen").splitlines()
    assert lines.count(b"secret: !vault |-") == 1 and {b"  ours", b"  theirs"} <= {*lines}
    assert place.get("a.yml") == before
    ended("theirs", edit(place, TAKE_THEIRS, *words), 0)
    assert place.get("a.yml") == files[2]
    place.put("a.yml", before)
    ended("both", edit(place, f'{TAKE_THEIRS}; sed -i s/theirs/both/ "$1"', *words), 0)
    assert texts(place.get("a.yml"), "old") == [b"both"]


@pytest.mark.parametrize("style", ("merge", "diff3"))
@pytest.mark.parametrize("driver", ("with the driver", "git alone"))
def test_shown_conflict(place: Place, driver: str, style: str) -> None:
    """`git diff` shows the conflict of one value of many, and no other value: the file has the layout of its sides."""
    needs_pyyaml()
    under_git(place, f"*.yml diff=ansible-vault{' merge=ansible-vault' if driver != 'git alone' else ''}\n")
    set_driver(place, *place.by_file("old"))
    settings = {"diff.ansible-vault.textconv": f"{TEXTCONV} --vault-password-file={place.secret('old')}"}
    for name, value in {**settings, "merge.conflictStyle": style}.items():
        place.run("git", "config", name, value)

    def write(text: bytes) -> dict[str, bytes]:
        return {
            "a.yml": block("old", b"1", name="a") + block("old", text, name="b") + b"c: 3\n" + block("old", name="d")
        }

    fork(place, *map(write, (b"base", b"ours", b"theirs")))
    ended("git", place.run("git", "merge", "theirs"), 1, "Merge conflict in a.yml")
    lines = place.run("git", "diff", "-U1").stdout.splitlines()
    changed = ["++<<<<<<< ours", " +  ours", "++=======", "+   theirs", "++>>>>>>> theirs"]
    assert lines[5:] == ["  b: !vault |-", *changed, "  c: 3"], lines
    shown = place.run(TEXTCONV, *place.by_file("old"), "a.yml").stdout.splitlines()
    assert shown[0] == "# ansible-vault: encrypted values: 3", "the values of a side"


def test_shown_conflict_of_others(place: Place) -> None:
    """A value that no password decrypts is shown as it is, and a side may be empty."""
    needs_pyyaml()
    closed = block("dev", name="closed")
    place.put("a.yml", both(block("old", b"x") + closed, closed))
    done = place.run(TEXTCONV, *place.by_file("old"), "a.yml")
    assert (
        done.stdout
        == line_of_values(2) + f"<<<<<<< ours\nsecret: !vault |-\n  x\n=======\n>>>>>>> theirs\n{closed.decode()}"
    )
    assert done.stderr.count("shown as it is: no secret decrypts this vault") == 2, done.stderr
    place.put("a.yml", both(block("old", b"x"), b""))
    done = place.run(TEXTCONV, *place.by_file("old"), "a.yml")
    assert done.stdout == line_of_values(1) + both(b"secret: !vault |-\n  x\n", b"").decode()

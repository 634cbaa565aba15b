"""Files of many values, or with aliases of aliases, are as any others: all of it is done, and nothing else changes."""

import re

import pytest

from companion_cases import CHECK, EDIT, HOOK, MERGE, ROTATE, TEXTCONV, Place, block, check_answer, decrypted, edit
from companion_cases import envelope_of, line_of_values, sealed, silent, summary, texts, to_new, versions
from companion_cases.repository import add_and_commit, under_git
from lib.needs import needs, needs_pyyaml

NUMBER = 300
NAMES = [f"secret{number}" for number in range(NUMBER)]
# A value as the tests write it. Other lines are around all of them.
VALUE = re.compile(rb"secret\d+: !vault \|\n(?: {10}\S+\n)+")
FIRST, LAST = b"port: 1\n", b"last: 1\n"


@pytest.fixture(autouse=True)
def requirements() -> None:
    needs_pyyaml()
    needs("git")


def text_of(name: str) -> bytes:
    return f"the text of {name}\n".encode()


def write_file(changed: str = "", text: bytes = b"", first: bytes = FIRST, last: bytes = LAST) -> bytes:
    """Return the file, in which one value may have another text."""
    values = [block("old", text if name == changed else text_of(name), name=name) for name in NAMES]
    return b"".join([first, *values, last])


def list_values(data: bytes) -> list[bytes]:
    """Return all values, after a look at what is around them."""
    assert len(VALUE.sub(b"", data).splitlines()) == 2, "there is nothing else"
    return VALUE.findall(data)


def find_changed(before: bytes, after: bytes) -> dict[str, bytes]:
    """Return the envelopes of those values that differ, by their names."""
    pairs = zip(NAMES, list_values(before), list_values(after), strict=True)
    return {name: envelope_of(new) or b"" for name, old, new in pairs if old != new}


def test_shown(place: Place) -> None:
    place.put("vars.yml", write_file())
    done = place.run(CHECK, *place.by_file("old"), "vars.yml")
    lines = done.stdout.splitlines()
    assert [line.split(": ")[1] for line in lines[:-1]] == NAMES, "each value, in order"
    assert (lines[-1], done.returncode) == (f"{NUMBER} decrypted, 0 failed", 0)
    shown = "".join(f"{name}: !vault |\n  {text_of(name).decode()}" for name in NAMES)
    whole = f"{line_of_values(NUMBER)}{FIRST.decode()}{shown}{LAST.decode()}"
    check_answer("all values", place.run(TEXTCONV, *place.by_file("old"), "vars.yml"), output=whole)


def test_edits(place: Place) -> None:
    """An edit of one value, in an editor or without, leaves all others as they are."""
    before = write_file()
    place.put("vars.yml", before)
    done = edit(place, 'sed -i "s/text of secret7$/changed text/" "$1"', *place.by_file("old"), "vars.yml")
    check_answer("an edit", done, errors=f"{EDIT}: vars.yml: encrypted secret7 (label default)\n")
    (name, envelope), *others = find_changed(before, place.get("vars.yml")).items()
    assert (name, decrypted("old", envelope), others) == ("secret7", b"the changed text\n", [])
    place.put("vars.yml", before)
    words = [EDIT, *place.by_file("old"), "--value", "secret9", "vars.yml"]
    assert place.run_on(b"typed", *words).returncode == 0
    (name, envelope), *others = find_changed(before, place.get("vars.yml")).items()
    assert (name, decrypted("old", envelope), others) == ("secret9", b"typed", [])


def test_rotation(place: Place) -> None:
    """All values get the new password, and the merge of a side that has the old one gives its change to the others."""
    base = write_file()
    place.put("vars.yml", base)
    check_answer(
        "the rotation",
        place.run(ROTATE, *to_new(place), "vars.yml"),
        output=f"vars.yml: 300 rotated\n{summary(NUMBER)}\n",
    )
    rotated = place.get("vars.yml")
    assert texts(rotated, "new") == [text_of(name) for name in NAMES]
    assert len(find_changed(base, rotated)) == NUMBER
    ours = write_file("secret7", b"changed\n", first=b"port: 2\n")
    paths = versions(place, "merged.yml", base, ours, rotated.replace(LAST, b"last: 2\n"))
    silent("the merge", place.run(MERGE, *place.by_file("old"), *place.by_file("new"), *paths))
    merged = place.get("merged.yml")
    (name, envelope), *others = find_changed(rotated, merged).items()
    assert (name, decrypted("new", envelope), others) == ("secret7", b"changed\n", [])
    assert VALUE.sub(b"", merged) == b"port: 2\nlast: 2\n", "both other changes"


def test_merge(place: Place) -> None:
    """A change of each side."""
    base, ours, theirs = write_file(), write_file("secret7", b"ours\n"), write_file("secret9", b"theirs\n")
    silent("the merge", place.run(MERGE, *place.by_file("old"), *versions(place, "vars.yml", base, ours, theirs)))
    changed = find_changed(base, place.get("vars.yml"))
    assert changed == {"secret7": sealed("old", b"ours\n"), "secret9": sealed("old", b"theirs\n")}


# Each list has nine aliases of the one before: in full, they would be 31 billion texts.
ALIASES = b"a0: &a0 [x, y]\n" + b"".join(
    b"a%d: &a%d [%s]\n" % (number, number, b", ".join([b"*a%d" % (number - 1)] * 9)) for number in range(1, 11)
)


def test_aliases(place: Place) -> None:
    """An alias is never what it stands for. Plaintext with an anchor is found once, where it is."""
    data = block("old") + ALIASES
    under_git(place, "")
    place.put("vars.yml", data)
    add_and_commit(place)
    old = place.by_file("old")
    assert place.run(CHECK, *old, "vars.yml").returncode == 0
    assert place.run(TEXTCONV, *old, "vars.yml").stdout.endswith(ALIASES.decode())
    done = edit(place, 'sed -i "s/correct/wrong/" "$1"', *old, "vars.yml")
    check_answer("an edit", done, errors=f"{EDIT}: vars.yml: encrypted secret (label default)\n")
    assert place.run(ROTATE, *to_new(place), "vars.yml").returncode == 0
    assert place.get("vars.yml").endswith(ALIASES), "only the value is changed"
    place.run("git", "add", "vars.yml")
    silent("the hook", place.run(HOOK))
    place.put("vars.yml", b"secret: &plain text\nother: *plain\n" + ALIASES)
    place.run("git", "add", "vars.yml")
    done = place.run(HOOK)
    assert done.returncode == 1
    assert "vars.yml has secret in plaintext, which was encrypted" in done.stderr

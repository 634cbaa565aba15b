"""What was saved cannot be put back: at a terminal, the editor opens again, and --resume continues a kept edit."""

from pathlib import Path
from typing import NamedTuple

import pytest

from companion_cases import CHANGE, CHANGED, EDIT, TEXT, Place, block, check_answer, decrypted, edit
from companion_cases import ended, run_changed, sealed, silent, texts
from companion_cases.terminal import READING, ask
from lib.needs import needs, needs_pyyaml

AGAIN = "Open the editor again? (yes, no): "
# What an editor shows of a file with one value.
SHOWN = f"secret: !vault |\n  {TEXT.decode()}"
# A line without its second quote, what is saved with it, and editors that type it and mend it.
TYPO = 'new: !vault "more'
TYPED = f"{SHOWN}{TYPO}\n".encode()
MISTAKE = f"echo '{TYPO}' >> \"$1\""
MEND = 'sed -i \'s/"more/more/\' "$1"'
NO_YAML = "vars.yml: line 4: it cannot be read as YAML: "
SAVE_AND_FAIL = f"{CHANGE}; exit 3"
YES = b"yes\n"


def mistaken_editor(later: str) -> str:
    """Return an editor that makes a mistake, and then does something else if it opens again. It notes what it sees."""
    return f"""\
cat "$1" >> ../seen
if grep -q '^new' "$1"; then {later}; else {MISTAKE}; fi
"""


class End(NamedTuple):
    """What the editor does when it opens again, what is typed at each question, the status, and part of the message."""

    later: str
    typed: list[bytes]
    status: int
    why: str


ENDS = {
    "mended": End(later=MEND, typed=[YES], status=0, why=""),
    "mended, after one letter": End(later=MEND, typed=[b"y\n"], status=0, why=""),
    "no answer, later": End(later=":", typed=[YES, YES, b"\x04"], status=1, why=NO_YAML),
    "one letter for no": End(later=":", typed=[b"n\n"], status=1, why=NO_YAML),
    "no": End(later=":", typed=[b"no\n"], status=1, why=NO_YAML),
    "no, after another word": End(later=":", typed=[b"maybe\n", b"no\n"], status=1, why=NO_YAML),
    "an interrupt": End(later=":", typed=[b"\x03"], status=130, why=NO_YAML),
    "the editor fails": End(later="exit 3", typed=[YES], status=1, why="status 3"),
}


@pytest.mark.parametrize("end", ENDS.values(), ids=ENDS)
def test_opened_again(place: Place, end: End) -> None:
    """The text is there again. An edit that is given up is kept."""
    needs("stty")
    needs_pyyaml()
    place.put("vars.yml", block("old"))
    editor = place.script(mistaken_editor(end.later), "editor")
    words = [*READING, EDIT, *place.by_file("old"), "vars.yml"]
    answers = [(AGAIN, each) for each in end.typed]
    session = ask(place, *words, answers=answers, EDITOR=editor)
    is_given_up = end.status != 0
    assert session.returncode == end.status, session
    assert NO_YAML in session.shown, "the reason is shown"
    assert end.why in session.stderr, "why it ends"
    assert ("what you saved is encrypted in" in session.stderr) == is_given_up, session
    assert place.kept() == ([TYPED] if is_given_up else []), "what was saved is kept"
    assert place.left() == [], "no plaintext is left"
    seen = (place.path / "seen").read_bytes()
    assert seen == SHOWN.encode() + TYPED * sum(
        typed.startswith(b"y") for typed in end.typed
    ), "what the editor shows each time"
    after = place.get("vars.yml")
    assert after.startswith(block("old")), "the old value stays"
    assert texts(after, "old")[1:] == ([] if is_given_up else [b"more"]), "the new values"


def test_resumed(place: Place) -> None:
    """While there is a copy, no editor opens the file without it. With --resume, one opens the text of the copy, and a
    text that is still wrong takes its place."""
    needs_pyyaml()
    name = "-rf it's.yml"
    place.put(name, block("old"), 0o640)
    options = [*place.by_file("old"), "--"]
    resume = ["--resume", *options, name]
    ended("a mistake", edit(place, MISTAKE, *options, name), 1, "--resume opens it, --discard removes it")
    [copy] = place.copies()
    done = edit(place, "touch ../started", *options, name)
    ended(
        "a second edit", done, 1, f"an earlier edit is encrypted in {copy}; --resume opens it, --discard removes it\n"
    )
    place.put(f"../{name}", block("old"))
    done = edit(place, "touch ../started", "--resume", *options, f"../{name}")
    ended("a file of this name elsewhere", done, 1, f"no earlier edit left a copy in {copy.parent}\n")
    assert not (place.path / "started").exists(), "no editor is started"
    ended("not mended", edit(place, 'echo "# x" >> "$1"', *resume), 1, "it cannot be read as YAML")
    newest = TYPED + b"# x\n"
    assert (place.copies(), place.kept()) == ([copy], [newest]), "the copy of the newest text"
    # The third line is the first one that was typed. The copy stays.
    ended("taken back", edit(place, 'sed -i "3,$ d" "$1"', *resume), 0, "nothing was changed")
    done = edit(place, f'cp "$1" ../seen; {MEND}', *resume)
    where = f"{EDIT}: -rf it's.yml"
    check_answer("mended", done, errors=f"{where}: encrypted new (label default)\n")
    assert (place.path / "seen").read_bytes() == newest, "what the editor shows"
    assert texts(place.get(name), "old") == [TEXT, b"more"], "the values of the file"
    assert place.mode(name) == "0o640", "the mode stays"
    assert place.copies() == [], "the copy is gone"
    assert place.names() == [name], "no file is left beside it"
    assert place.left() == [], "no plaintext is left"


def test_copy_of_a_new_file(place: Place) -> None:
    """A file that is still to be made is edited no further without its copy, either."""
    words = [*place.by_file("old"), "new.yml"]
    ended("a failure", edit(place, 'echo typed > "$1"; exit 3', *words), 1, "--resume opens it, --discard removes it")
    ended("a second edit", edit(place, "touch ../started", *words), 1, "an earlier edit is encrypted in ")
    assert not (place.path / "started").exists(), "no editor is started"
    assert place.names() == [], "there is no file"


def test_discarded(place: Place) -> None:
    """--discard removes the copy. It needs no password, and the file may be gone."""
    place.put("a.yml", sealed("old"))
    words = [*place.by_file("old"), "a.yml"]
    for change in ("true", "rm a.yml"):
        ended("a failure", edit(place, SAVE_AND_FAIL, *words), 1, "--discard removes it")
        assert place.shell(change).returncode == 0
        silent("it is removed", edit(place, "touch ../started", "--discard", "a.yml"))
        assert place.copies() == [], "no copy is left"
    ended("there is none", edit(place, "true", "--discard", "a.yml"), 1, "a.yml: no earlier edit left a copy in ")
    assert not (place.path / "started").exists(), "no editor is started"
    for option in ("--resume", "--value=x"):
        ended(option, edit(place, "true", "--discard", option, "a.yml"), 2, "cannot be combined")


OTHER_EDIT = """
old = replacing.replace
def replace(target, *words):
    if "/ansible-vault/" in target:
        with open(target, "wb") as file:
            file.write(b"the copy of another edit")
    old(target, *words)
replacing.replace = replace
"""


def test_two_edits(place: Place) -> None:
    """A copy that another edit has made meanwhile is not replaced: the text stays in plaintext."""
    place.put("a.yml", sealed("old"))
    words = [*place.by_file("old"), "a.yml"]
    done = run_changed(place, EDIT, OTHER_EDIT, words, EDITOR=place.script(SAVE_AND_FAIL, "editor"))
    ended(
        "the edit", done, 1, "an encrypted copy cannot be kept: another program changed it", "is left in plaintext in "
    )
    [copy] = place.copies()
    assert copy.read_bytes() == b"the copy of another edit"
    assert CHANGED in [Path(path).read_bytes() for path in place.left() if path.endswith("a.yml")], "what was saved"


# A file, if there is one, and what is saved in it.
KEPT: dict[str, tuple[bytes | None, bytes]] = {
    "an empty text": (sealed("old"), b""),
    "a new vault": (None, b"new\n"),
    "what is no UTF-8": (sealed("old"), b"\xff\0"),
}


@pytest.mark.parametrize("before, saved", KEPT.values(), ids=KEPT)
def test_each_text(place: Place, before: bytes | None, saved: bytes) -> None:
    """Whatever is saved is kept, and taken up from there."""
    if before is not None:
        place.put("a.yml", before)
    place.put("../saved", saved)
    words = [*place.by_file("old"), "a.yml"]
    ended("a failure", edit(place, 'cp ../saved "$1"; exit 3', *words), 1, "--resume opens it")
    assert place.kept() == [saved], "what was saved is kept"
    assert place.files() == ({} if before is None else {"a.yml": before}), "the file stays"
    done = edit(place, 'cp "$1" ../seen; echo more >> "$1"', "--resume", *words)
    errors = "" if before else f"{EDIT}: a.yml: encrypted the new vault (label default)\n"
    check_answer("it is taken up", done, errors=errors)
    assert place.get("../seen") == saved, "what the editor shows"
    assert decrypted("old", place.get("a.yml")) == saved + b"more\n", "what was saved then"
    assert place.copies() == [], "no copy is left"


def test_resumed_beside_a_swap_file(place: Place) -> None:
    """What an editor leaves is named, but the file is written, so the copy is gone."""
    place.put("a.yml", sealed("old"))
    words = [*place.by_file("old"), "a.yml"]
    ended("a failure", edit(place, SAVE_AND_FAIL, *words), 1, "--resume opens it")
    done = edit(place, 'echo "# x" >> "$1"; echo typed > "$1.swp"', "--resume", *words)
    ended("it is resumed", done, 1, "is left, with a.yml.swp in it")
    assert decrypted("old", place.get("a.yml")) == CHANGED + b"# x\n", "the texts of both edits"
    assert place.copies() == [], "no copy is left"


CHANGED_SINCE = "its text or its label has changed since the edit that left "
VAULT = sealed("prod", label="prod")
VALUE = block("prod", label="prod")


class Meanwhile(NamedTuple):
    """A file at first, what somebody else makes of it, and why the text of an edit is not taken up, if it is not."""

    before: bytes
    after: bytes
    why: str


MEANWHILE = {
    "another label": Meanwhile(before=VAULT, after=sealed("dev", label="dev"), why=CHANGED_SINCE),
    "a false label": Meanwhile(before=VAULT, after=sealed("dev", label="prod"), why="its label is prod, but dev@"),
    "a value": Meanwhile(before=VALUE, after=block("prod", label="prod", name="b"), why=CHANGED_SINCE),
    "two passwords": Meanwhile(before=VALUE, after=VALUE + block("dev", label="dev"), why=CHANGED_SINCE),
    "a rotated value": Meanwhile(before=VALUE, after=block("prod2", label="prod"), why=""),
}


@pytest.mark.parametrize("meanwhile", MEANWHILE.values(), ids=MEANWHILE)
def test_changed_meanwhile(place: Place, meanwhile: Meanwhile) -> None:
    """The text does not replace another one, and gets no other password than that of its label."""
    needs_pyyaml()
    words = [*place.by_id("dev", "dev"), *place.by_id("prod", "prod"), *place.by_id("prod", "prod2"), "a.yml"]
    place.put("a.yml", meanwhile.before)
    done = edit(place, SAVE_AND_FAIL, *words)
    [copy] = place.copies()
    ended("a failed edit", done, 1, f"encrypted in {copy}\n")
    place.put("a.yml", meanwhile.after)
    done = edit(place, "touch ../started", *words, "--resume")
    if meanwhile.why:
        ended("it is refused", done, 1, meanwhile.why)
        assert not (place.path / "started").exists(), "no editor is started"
        assert place.get("a.yml") == meanwhile.after, "the file stays"
    else:
        check_answer("it is taken up", done, errors=f"{EDIT}: a.yml: encrypted secret (label prod)\n")
        assert texts(place.get("a.yml"), "prod2") == [CHANGED], "the text under the new password"
        assert place.copies() == [], "no copy is left"


def test_copies_of_strangers(place: Place) -> None:
    """A directory of copies may be open to others, since copies are encrypted. It is the user's own, and no link."""
    place.put("a.yml", sealed("old"))
    words = [*place.by_file("old"), "a.yml"]
    state = place.path / "state"
    place.environment["XDG_STATE_HOME"] = str(state)
    ended("a failed edit", edit(place, SAVE_AND_FAIL, *words), 1, f"is encrypted in {state}/ansible-vault/")
    place.shell("chmod 777 ../state ../state/*")
    done = edit(place, 'cp "$1" ../seen', "--resume", *words)
    silent("it is open to others", done)
    assert place.get("../seen") == CHANGED, "what the editor shows"
    ended("another", edit(place, 'echo more > "$1"; exit 3', *words), 1, f"is encrypted in {state}/ansible-vault/")
    place.shell("mv ../state/ansible-vault ../state/real; ln -s real ../state/ansible-vault")
    why = f"({state}/ansible-vault is no directory of yours); set XDG_STATE_HOME to a directory of your own"
    ended("a link", edit(place, "touch ../started", "--resume", *words), 1, why)
    assert not (place.path / "started").exists(), "no editor is started"


@pytest.mark.parametrize("codec", ["utf-16", "utf-16-le", "latin-1"])
def test_saved_in_another(place: Place, codec: str) -> None:
    """The file stays, and the copy contains every byte that was saved."""
    needs_pyyaml()
    before = block("old")
    place.put("vars.yml", before)
    # An ASCII text is the same in Latin-1 and in UTF-8.
    comment = "# größe\n" if codec == "latin-1" else "# x\n"
    typed = f"{SHOWN}{comment}".encode(codec)
    place.put("../typed", typed)
    done = edit(place, 'cp ../typed "$1"', *place.by_file("old"), "vars.yml")
    ended("the edit", done, 1, "vars.yml: it ", "save it as UTF-8")
    assert place.kept() == [typed], "the copy has each byte"
    assert place.get("vars.yml") == before, "the file stays"
    assert place.left() == [], "no plaintext is left"

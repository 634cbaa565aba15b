"""Messages are acted on: what one says to run, to write or to leave out is taken out of it, and then the fault is gone.

Each is for a file with an awkward name, and acted on at the top of the repository or below. The messages of each
companion are in `hook_says_what_to_do.py`, `check_and_rotate_say_what_to_do.py`, `edit_and_with_say_what_to_do.py` and
`merge_says_what_to_do.py`.
"""

import re
import shlex
from collections.abc import Callable
from typing import NamedTuple

import pytest

from companion_cases import HOOK, PASSWORDS, TEXT, TEXTCONV, Place, sealed, texts
from companion_cases.repository import SALTS, add_and_commit, fork, set_driver, under_git
from lib.needs import needs, needs_pyyaml
from model.vaults import seal


class Stand(NamedTuple):
    """Where the user stands, and the name of a file at the top, which is a pattern, too, that fits a neighbour's."""

    folder: str
    name: str


STANDS = {
    "at the top": Stand(".", "-it's a größe *.yml"),
    "below": Stand("inner", '*\n$(touch x)`touch x`\\ "so".yml'),
}
# What the neighbour has in the last commit, in the index and in the file.
COMMITTED, STAGED, WRITTEN = (seal(PASSWORDS["old"], TEXT, b"", salt) for salt in SALTS)
OLD = "--vault-id=~/secrets/old"
DEV = "--vault-id=dev@~/secrets/dev"
PROD = "--vault-id=prod@~/secrets/prod"
# Commands are for the file, unless they begin like one of these.
ALONE = (HOOK, TEXTCONV, "./")
OLD_VAULT = sealed("old")
TAKE_THEIRS = "sed -i '/^<<<</,/^====/d; /^>>>>/d' \"$1\""


class Case(NamedTuple):
    """A place, where the user stands in it, and the name of a file at its top."""

    place: Place
    folder: str
    name: str

    def run(self, command: str) -> str:
        """Run a command, and return its status and what it prints."""
        path = self.name if self.folder == "." else f"../{self.name}"
        words = shlex.split(command if command.startswith(ALONE) else f"{command} -- A_FILE")
        done = self.place.run(*(word.replace("A_FILE", path) for word in words), folder=self.folder)
        return f"{done.returncode}\n{done.stdout}{done.stderr}"

    def shell(self, text: str, folder: str = "") -> None:
        done = self.place.shell(text, "bash", folder or self.folder)
        assert done.returncode == 0, (text, done)

    def put(self, content: bytes, mode: int = 0o644) -> None:
        self.place.put(self.name, content, mode)

    def stage(self, content: bytes, name: str = "") -> None:
        self.place.put(name or self.name, content)
        self.place.run("git", "--literal-pathspecs", "add", "--", name or self.name)

    def edit_by(self, editor: str) -> None:
        self.place.environment["EDITOR"] = self.place.script(editor, "editor")


SetUp = Callable[[Case], object]
# Acts on what a message has advised. It returns the command to run then, or None for the one that gave the message.
Act = Callable[[Case, re.Match[str]], str | None]


class Row(NamedTuple):
    """A message, and what acts on it."""

    # What sets up the fault, and the command that reports it.
    fault: SetUp
    command: str
    # A pattern for the part of the message that is acted on.
    advice: str
    act: Act
    # Those in the file after the last command.
    plaintexts: list[bytes] = [TEXT]
    # The content of .gitattributes, and the first editor.
    attributes: str = ""
    editor: str = "true"


each_stand = pytest.mark.parametrize("stand", STANDS.values(), ids=STANDS)


def check_row(place: Place, row: Row, stand: Stand) -> None:
    needs("git", "bash")
    needs_pyyaml()
    under_git(place, row.attributes)
    case = Case(place, stand.folder, stand.name)
    # The name of the file, as a pattern, fits this one.
    neighbour = stand.name.replace("*", "x")
    place.put("inner/a.txt", b"")
    place.put("../.vault/dev.pass", PASSWORDS["dev"])
    place.put(neighbour, COMMITTED)
    add_and_commit(place)
    case.edit_by(row.editor)
    row.fault(case)
    case.stage(STAGED, neighbour)
    place.put(neighbour, WRITTEN)
    printed = case.run(row.command)
    advice = re.search(row.advice, printed)
    assert advice, f"the message of {row.command}: {printed}"
    done = case.run(row.act(case, advice) or row.command)
    assert done.startswith("0\n"), f"what it says, {advice[0]}, does not help: {done}"
    assert not re.search(row.advice, done), f"it is said again: {done}"
    check_plaintexts(case, row)
    assert place.run_on(b"", "git", "show", f":{neighbour}").stdout == STAGED, "the neighbour's index is as before"
    assert place.get(neighbour) == WRITTEN, "the neighbour is as before"
    assert [*place.path.rglob("x")] == [], "nothing within a name is run"


def check_plaintexts(case: Case, row: Row) -> None:
    content = case.place.get(case.name) if (case.place.tree / case.name).is_file() else OLD_VAULT
    found = []
    for password in PASSWORDS:
        found += [text for text in texts(content, password) if text is not None]
    assert found == row.plaintexts, "the plaintexts of the file then"


# What sets up a fault.


def written(content: bytes) -> SetUp:
    return lambda case: case.put(content)


def staged(before: bytes, after: bytes) -> SetUp:
    """Return what commits one content and stages another."""

    def stage(case: Case) -> None:
        case.put(before)
        add_and_commit(case.place)
        case.stage(after)

    return stage


def merged(base: bytes, ours: bytes, theirs: bytes, *, is_added: bool = False) -> SetUp:
    """Return what merges two branches without a driver, which is set up later."""

    def merge(case: Case) -> None:
        fork(case.place, {case.name: base}, {case.name: ours}, {case.name: theirs})
        assert "Merge conflict" in case.place.shell("git merge theirs").stdout
        set_driver(case.place, *case.place.by_file("old"))
        if is_added:
            case.stage(case.place.get(case.name))

    return merge


# What acts on an advice.


def type_advice(case: Case, advice: re.Match[str]) -> None:
    """Type what the message says into a shell."""
    case.shell(advice[1])


def run_with_advice(command: str) -> Act:
    """Return what has this command run, in which \\1 is what the message says."""
    return lambda _case, advice: advice.expand(command)


def write_advice(text: str) -> Act:
    """Return what writes this text into the file, with what the message says in place of {}."""
    return lambda case, advice: case.put(text.format(advice[1]).encode())

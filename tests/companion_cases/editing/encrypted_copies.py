"""ansible-vault-edit keeps what was typed if a step after the editor fails."""

import os
import re
from pathlib import Path
from random import Random
from typing import NamedTuple

import pytest

from companion_cases import CHANGE, CHANGED, EDIT, HEAD, TEXT, Companions, Done, Place, block, decrypted, edit, ended
from companion_cases import run_changed, sealed
from lib.subtests import SubTests

STAYS = {"all.yml": sealed("old")}
CHANGED_MEANWHILE = "another program changed it in the meantime"
# Changes of the companion: an unexpected exception, a tool that cannot encrypt, and a tree on a full disk.
BROKEN = """
from ansible_vault_companions.editing.drafts import VaultDraft
def encrypt(*words):
    raise RecursionError("too deep")
VaultDraft.encrypt = encrypt
"""
UNSEALED = """
from ansible_vault_companions.tool import Tool
def encrypt(*words):
    raise MemoryError("no memory")
Tool.encrypt = encrypt
"""
SILENT = UNSEALED.replace('MemoryError("no memory")', "MemoryError")
UNREAD = """
read = reading.read
def fail(path):
    if os.path.basename(os.path.dirname(path)).startswith("ansible-vault-"):
        raise MemoryError("no memory to read")
    return read(path)
reading.read = fail
"""
UNWRITTEN = """
replace = replacing.replace
def fail(target, *words, **options):
    if "/ansible-vault/" not in target:
        raise MemoryError("no memory to write")
    replace(target, *words, **options)
replacing.replace = fail
"""
UNASKED = (
    BROKEN.replace("RecursionError", "refusals.Refused")
    + """
from ansible_vault_companions import refusals
from ansible_vault_companions.passwords import prompts
def fail(question):
    raise ValueError("no answer")
prompts.ask_consent = fail
"""
)
GONE = UNASKED.replace('ValueError("no answer")', 'OSError(5, "no terminal")')
FULL = """
write = replacing.write_new
def full(folder, *words, **options):
    if not folder.endswith("/ansible-vault"):
        raise OSError(28, "no space")
    return write(folder, *words, **options)
replacing.write_new, replacing.check_replaceable = full, lambda target: None
"""
STUCK = """
unlink = os.unlink
def fail(path):
    if os.path.basename(os.path.dirname(path)).startswith("ansible-vault-"):
        raise OSError(5, "broken")
    unlink(path)
os.unlink = fail
"""
SEALED, PLAIN = "encrypted", "left in plaintext"


class Stop(NamedTuple):
    """What the editor does, a change of the companion, the reason in the message, how the text is kept, and the files
    that stay."""

    editor: str
    change: str
    why: str
    how: str
    stays: dict[str, bytes]


STOPS = {
    "hard links": Stop(
        editor=f"{CHANGE}; ln all.yml ../second",
        change="",
        why="it has 2 names (hard links); ",
        how=SEALED,
        stays=STAYS,
    ),
    "a failure": Stop(editor=f"{CHANGE}; exit 3", change="", why="the editor failed", how=SEALED, stays=STAYS),
    "a signal": Stop(editor=f"{CHANGE}; kill -KILL $$", change="", why="the editor failed", how=SEALED, stays=STAYS),
    "a removal": Stop(editor=f"{CHANGE}; rm all.yml", change="", why=CHANGED_MEANWHILE, how=SEALED, stays={}),
    "an exception": Stop(editor=CHANGE, change=BROKEN, why="too deep", how=SEALED, stays=STAYS),
    "an exception of the file": Stop(
        editor=CHANGE, change=UNWRITTEN, why="no memory to write", how=SEALED, stays=STAYS
    ),
    "an exception of a question": Stop(
        editor=CHANGE, change=UNASKED, why="ValueError in line ", how=PLAIN, stays=STAYS
    ),
    "a terminal that is gone": Stop(editor=CHANGE, change=GONE, why="too deep", how=SEALED, stays=STAYS),
    "a full disk": Stop(editor=CHANGE, change=FULL, why="no space", how=SEALED, stays=STAYS),
    "no memory to read it": Stop(editor=CHANGE, change=UNREAD, why="no memory to read", how=PLAIN, stays=STAYS),
    "no vault": Stop(
        editor=CHANGE,
        change=UNSEALED,
        why="no memory; an encrypted copy cannot be kept: no memory",
        how=PLAIN,
        stays=STAYS,
    ),
    "no text": Stop(
        editor=CHANGE,
        change=SILENT,
        why="MemoryError; an encrypted copy cannot be kept: MemoryError",
        how=PLAIN,
        stays=STAYS,
    ),
    "no directory for copies": Stop(
        editor=f"{CHANGE}; rm all.yml", change="", why=CHANGED_MEANWHILE, how=PLAIN, stays={}
    ),
}


@pytest.mark.parametrize("what", STOPS)
def test_stops(place: Place, what: str) -> None:
    """A text that cannot be put back is kept encrypted. If that fails, too, the private directory stays."""
    stop = STOPS[what]
    place.put("all.yml", sealed("old"), 0o600)
    if what == "no directory for copies":
        (place.tree / "ansible-vault").symlink_to(place.temporary)
        place.environment["XDG_STATE_HOME"] = str(place.tree)
    words = [*place.by_file("old"), "all.yml"]
    done = run_changed(place, EDIT, stop.change, words, EDITOR=place.script(stop.editor, "editor"))
    ended("the edit", done, 1, f"all.yml: {stop.why}", f"; what you saved is {stop.how} in ")
    [name] = re.findall(r"; what you saved is (?:encrypted|left in plaintext) in (.+)\n", done.stderr)
    if stop.how == SEALED:
        # The path of a copy.
        private = Path(name)
        text = HEAD.sub(b"", decrypted("old", private.read_bytes()) or b"")
        left: list[str] = []
        copies = [name]
    else:
        # The path of the private directory.
        private = Path(name, "all.yml")
        text = private.read_bytes()
        left = [name, str(private)]
        copies = []
    assert text == CHANGED, "all of it is there"
    for path in (private, private.parent):
        assert path.stat().st_mode & 0o077 == 0, f"only its owner can open {path}"
    assert place.left() == left, "no other plaintext is left"
    assert [str(path) for path in place.copies()] == copies, "no other copy is left"
    assert place.files() == stop.stays, "the files stay"


def test_what_cannot_be_removed(place: Place) -> None:
    place.put("all.yml", sealed("old"))
    words = [*place.by_file("old"), "all.yml"]
    done = run_changed(place, EDIT, STUCK, words, EDITOR=place.script(CHANGE, "editor"))
    folder, *_ = place.left()
    why = f"all.yml: what you saved is in the file; {folder} is left, with all.yml in it; save what you need, "
    ended("the edit", done, 1, why)
    assert decrypted("old", place.get("all.yml")) == CHANGED, "what was saved"


def test_undo_file(place: Place) -> None:
    """What the editor leaves beside the file keeps no message about a secret in plaintext from the user."""
    place.put("all.yml", block("old", b"horse"))
    editor = place.script('echo "secret: horse" > "$1"; echo undo > "${1%/*}/undo"', "editor")
    done = place.run(EDIT, *place.by_file("old"), "all.yml", EDITOR=editor)
    ended("the edit", done, 1, "all.yml: secret is now plaintext\n", " is left, with undo in it; ")


# Writes a file into a directory just before it is removed.
LATE = """
remove = os.rmdir

def write_and_remove(folder):
    with open(os.path.join(folder, "all.yml"), "w") as file:
        file.write("typed")
    remove(folder)

os.rmdir = write_and_remove
"""


def test_late_file(place: Place) -> None:
    """What a program of the editor writes while the directory is emptied stays, and the message names it."""
    place.put("all.yml", sealed("old"))
    words = [*place.by_file("old"), "all.yml"]
    done = run_changed(place, EDIT, LATE, words, EDITOR=place.script(CHANGE, "editor"))
    folder, path = place.left()
    assert Path(path).read_bytes() == b"typed", "what was typed"
    ended("the edit", done, 1, f"what you saved is in the file; {folder} is left, with all.yml in it; save what you ")
    assert decrypted("old", place.get("all.yml")) == CHANGED, "what was saved"


# Raises an exception at a line of the companion, of those that run once something is saved, and counts them. The first
# line has the number 1, so with 0, none raises it. A message that cannot be written names nothing. Python comes to a
# line with `with` again at the end of its context, between two statements, where nothing fails.
PLANT = """
from ansible_vault_companions import refusals

count = 0

def trace(frame, event, argument):
    return plant if re.search("companions/(?!.*output.py)|ansible-vault-edit$", frame.f_code.co_filename) else None

def plant(frame, event, argument):
    global count
    is_context = linecache.getline(frame.f_code.co_filename, frame.f_lineno).lstrip().startswith("with ")
    if event == "line" and not is_context and (count or os.path.exists("../saved")):
        count += 1
        with open("../count", "w") as file:
            file.write(str(count))
        if count == {}:
            raise {}("planted")
    return plant

import linecache, re
sys.settrace(trace)
"""
KINDS = ("RuntimeError", "MemoryError", "OSError", "KeyError", "refusals.Refused", "RecursionError")


@pytest.mark.parametrize("is_kept", (False, True))
def test_planted_exceptions(cases: Companions, subtests: SubTests, is_kept: bool) -> None:
    """Whichever line raises an exception after the editor's end, what was saved is in the file, or a message says where
    it is."""

    def edit_and_raise(line: int, kind: str) -> tuple[Place, Done]:
        place = cases.place()
        place.put("all.yml", sealed("old"))
        editor = place.script(f"{CHANGE}; touch ../saved{'; exit 3' if is_kept else ''}", "editor")
        change = PLANT.format(line, kind)
        done = run_changed(place, EDIT, change, [*place.by_file("old"), "all.yml"], EDITOR=editor)
        return place, done

    place, _ = edit_and_raise(0, "")
    most = count_lines(place)
    random = Random(most + is_kept)
    for line in random.sample(range(1, most), 25):
        kind = random.choice(KINDS)
        place, done = edit_and_raise(line, kind)
        with subtests.test(f"{kind} at line {line}"):
            assert count_lines(place) >= line, "the line is run"
            if decrypted("old", place.get("all.yml")) != CHANGED:
                where = places_of_text(place)
                assert any(path in done.stderr for path in where), f"one of {where} is named: {done.stderr}"


def count_lines(place: Place) -> int:
    return int(place.get("../count"))


def places_of_text(place: Place) -> list[str]:
    """Return the directories with the plaintext that was saved, and the copies, if one of them has it."""
    private = [path for path in place.left() if Path(path).is_file() and Path(path).read_bytes() == CHANGED]
    # A fault may leave an empty copy, beside the text.
    texts = {path: decrypted("old", path.read_bytes()) or b"" for path in place.copies()}
    copies = [str(path) for path, text in texts.items() if text.endswith(CHANGED)]
    return [*(os.path.dirname(path) for path in private), *copies]


KILLED = "kill -KILL $$"


class Leftover(NamedTuple):
    """What an editor does, and the files that are left. A backup has a text that the file had."""

    editor: str
    names: str


LEFTOVERS = {
    "nothing": Leftover(editor=":", names=""),
    "a backup of the first text": Leftover(editor=f'cp "$1" "$1~"; {CHANGE}', names=""),
    "backups of both texts": Leftover(editor=f'cp "$1" "$1.1~"; {CHANGE}; cp "$1" "$1.2~"', names=""),
    "a backup, and nothing saved": Leftover(editor='cp "$1" "$1~"', names=""),
    "the file under another name": Leftover(editor=f'{CHANGE}; mv "$1" "$1.bak"', names="all.yml.bak"),
    "a text under another name": Leftover(editor=f'{CHANGE}; echo typed > "${{1%/*}}/b.yml"', names="b.yml"),
    "what was not saved": Leftover(editor=f'echo typed > "${{1%/*}}/.all.yml.swp"; {KILLED}', names=".all.yml.swp"),
    "what was not saved, beside what was": Leftover(
        editor=f'{CHANGE}; cp "$1" "$1~"; echo typed > "$1.save"', names="all.yml.save"
    ),
    "several texts": Leftover(
        editor=f'{CHANGE}; for name in c a b; do echo typed > "$1.$name"; done',
        names="all.yml.a, all.yml.b, all.yml.c",
    ),
    "an empty file": Leftover(editor=f'{CHANGE}; : > "$1.lock"', names=""),
    "a link to nothing": Leftover(editor=f'{CHANGE}; ln -s nothing "$1.link"', names=""),
    "a link to a file": Leftover(editor=f'{CHANGE}; echo typed > ../kept; ln -s "$PWD/../kept" "$1.link"', names=""),
    "a pipe": Leftover(editor=f'{CHANGE}; mkfifo "$1.pipe"', names=""),
    "an awkward name": Leftover(editor=f"{CHANGE}; echo typed > \"$1\"'\n'", names="'all.yml\\n'"),
    "a directory": Leftover(editor=f'{CHANGE}; mkdir "${{1%/*}}/more"; echo typed > "${{1%/*}}/more/a"', names="more"),
}


@pytest.mark.parametrize("what", LEFTOVERS)
def test_leftovers(place: Place, what: str) -> None:
    """What somebody may have typed into another file beside the text is not removed, and the message names it. A text
    that the file had is not left, neither there nor as a backup."""
    editor, names = LEFTOVERS[what]
    place.put("all.yml", sealed("old"))
    done = edit(place, editor, *place.by_file("old"), "all.yml")
    text = CHANGED if CHANGE in editor and "mv" not in editor else TEXT
    assert decrypted("old", place.get("all.yml")) == text, "it is written all the same"
    if names:
        folder, *paths = place.left()
        ended(what, done, 1, f"{folder} is left, with {names} in it; save what you need, ")
        old_texts = [path for path in paths if Path(path).is_file() and Path(path).read_bytes() in (TEXT, text)]
        assert old_texts == [], "the files with a text that the file had"
    else:
        assert place.left() == [], "nothing is left"


OF_DEV = block("dev", b"one", "dev", "a")
NO_YAML = 'c: !vault "more'
TYPE_NO_YAML = f"echo '{NO_YAML}' >> \"$1\""


class Secrets(NamedTuple):
    """A file, the label and the password of a second secret, more options, and how the file is kept: of several
    passwords, none may read all of it."""

    content: bytes
    second: tuple[str, str]
    words: list[str]
    how: str


SECRETS = {
    "two passwords": Secrets(
        content=OF_DEV + block("prod", b"two", "prod", "b"), second=("prod", "prod"), words=[], how=PLAIN
    ),
    "one password": Secrets(content=OF_DEV, second=("other", "dev"), words=[], how=SEALED),
    "the secret of a new value": Secrets(
        content=OF_DEV, second=("prod", "prod"), words=["--encrypt-vault-id", "prod"], how=PLAIN
    ),
}


@pytest.mark.parametrize("what", SECRETS)
def test_several_secrets(place: Place, what: str) -> None:
    row = SECRETS[what]
    place.put("vars.yml", row.content)
    words = [*place.by_id("dev", "dev"), *place.by_id(*row.second), *row.words, "vars.yml"]
    done = edit(place, TYPE_NO_YAML, *words)
    ended(what, done, 1, f"; what you saved is {row.how} in ")
    assert done.stderr.count("it cannot be read as YAML") == 1, "the reason is said once"
    is_plain = row.how == PLAIN
    plaintexts = [Path(path).read_text() for path in place.left() if path.endswith("/vars.yml")]
    assert len(plaintexts) == (1 if is_plain else 0), "the plaintexts that are left"
    assert all(text.endswith(f"\n{NO_YAML}\n") for text in plaintexts), "what was typed"
    assert len(place.kept("dev")) == (0 if is_plain else 1), "the copies under the first password"
    assert place.files() == {"vars.yml": row.content}, "the file stays"

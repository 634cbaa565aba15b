"""How files are replaced. Companions that inherit streams that are closed, full or abandoned, or ignored signals."""

import errno
import os
import re
from typing import NamedTuple

import pytest

from companion_cases import CHANGE, CHANGED, CHECK, CONFLICT, EDIT, HOOK, MERGE, NOBODY, ROTATE, TEXT, TEXTCONV, WITH
from companion_cases import Place, block, check_answer, decrypted, ended, run_changed, sealed, silent, summary, to_new
from companion_cases import versions
from lib.needs import needs
from lib.subtests import SubTests


def list_steps(lines: list[str], steps: dict[str, str]) -> list[str]:
    """Return the names of the steps that lines of a trace match, in their order."""
    found = []
    for line in lines:
        found += [name for name, pattern in steps.items() if re.match(pattern, line)]
    return found


def test_syncs(place: Place, subtests: SubTests) -> None:
    """The whole new file is on the disk before it gets its name, and the directory is before the run succeeds."""
    needs("strace")
    place.environment["EDITOR"] = place.script('echo a > "$1"', "editor")
    place.put("a.yml", sealed("old"))
    rotate, edit = [ROTATE, *to_new(place), "a.yml"], [EDIT, *place.by_file("old"), "new.yml"]
    tree = re.escape(str(place.tree))
    steps = {
        "written": rf"\d+ +write\(\d+<{tree}/\.ansible-vault-",
        "synced": rf"\d+ +fsync\(\d+<{tree}/\.ansible-vault-",
        "named": r'\d+ +(?:rename|link|linkat)\([^"]*"[^"]*/\.ansible-vault-',
        "folder synced": rf"\d+ +fsync\(\d+<{tree}>",
    }
    # `check_replaceable` makes the first sync of an edit.
    for words, wanted in ((rotate, [*steps]), (edit, ["synced", *steps])):
        with subtests.test(words[0]):
            done, lines = place.traced("-y -e trace=write,fsync,rename,link,linkat", *words)
            assert done.returncode == 0, done.stderr
            assert list_steps(lines, steps) == wanted, "the steps of the run"


class System(NamedTuple):
    """A call of the system, what it does, and why the run is refused, if it is."""

    call: str
    what: str
    why: str


SYSTEMS = {
    # The system gives the new file these attributes. The user may lack the right to set or remove them.
    "labels of security modules": System(call="listxattr", what="return ['security.selinux']", why=""),
    "no attributes": System(call="listxattr", what=f"raise OSError({errno.ENOTSUP}, 'no attributes')", why=""),
    "attributes that cannot be read": System(
        call="listxattr", what=f"raise OSError({errno.EIO}, 'broken')", why="broken"
    ),
    "owners that cannot even be kept": System(call="fchown", what="raise PermissionError(1, 'no owners')", why=""),
    "no room for the new name": System(call="replace", what=f"raise OSError({errno.ENOSPC}, 'full')", why="full"),
    "no file of its own": System(call="fsync", what=f"raise OSError({errno.EIO}, 'broken')", why="broken"),
    "no syncs of directories": System(
        call="fsync", what=f"if os.path.isdir(_[0]): raise OSError({errno.EINVAL}, '')", why=""
    ),
}


@pytest.mark.parametrize("call, what, why", SYSTEMS.values(), ids=SYSTEMS)
def test_metadata(place: Place, call: str, what: str, why: str) -> None:
    place.put("a.yml", sealed("old"))
    changed = f"def {call}(*_, **_options):\n    {what}\nos.{call} = {call}"
    done = run_changed(place, WITH, changed, ["rekey", *to_new(place), "a.yml"])
    if why:
        check_answer("it is refused", done, 1, errors=f"{WITH}: a.yml: {why}\n")
        assert decrypted("old", place.get("a.yml")) == TEXT, "the file stays"
    else:
        silent("it is replaced", done)
        assert decrypted("new", place.get("a.yml")) == TEXT, "it has the new password"
    assert place.names() == ["a.yml"], "no other file is left"


def test_access_control_lists(place: Place) -> None:
    """A file keeps its ACL, and inherits none of the directory's default ACL. Plaintext is for its owner only."""
    needs("setfacl")
    place.put("a.yml", sealed("old"), 0o640)
    made = place.shell(f"setfacl -m u:{NOBODY}:r a.yml && setfacl -d -m u:{NOBODY}:rwx .")
    if made.returncode != 0:
        pytest.skip("the file system has no access control lists")
    before = place.run("getfacl", "-c", "a.yml").stdout
    os.utime(place.tree / "a.yml", (0, 0))
    ended("a rotation", place.run(ROTATE, *to_new(place), "."), 0, summary(1))
    assert place.run("getfacl", "-c", "a.yml").stdout == before, "the ACL stays"
    assert (place.tree / "a.yml").stat().st_mtime > 0, "but not its time"
    silent("decrypted", place.run(WITH, "decrypt", *place.by_file("new"), "a.yml"))
    after = place.run("getfacl", "-c", "a.yml").stdout.split()
    assert after == ["user::rw-", "group::---", "other::---"], "plaintext has none"


def test_attributes(place: Place) -> None:
    """A file keeps its extended attributes, too, of which users make some. Plaintext has none."""
    place.put("a.yml", sealed("old"))
    names = ["user.note", "user.other note"]
    try:
        for name in names:
            os.setxattr(place.tree / "a.yml", name, b"text\0")
    except OSError:
        pytest.skip("the file system has no attributes of users")
    ended("a rotation", place.run(ROTATE, *to_new(place), "."), 0, summary(1))
    after = {name: os.getxattr(place.tree / "a.yml", name) for name in os.listxattr(place.tree / "a.yml")}
    assert {name: after.get(name) for name in names} == dict.fromkeys(names, b"text\0"), "they stay"
    silent("decrypted", place.run(WITH, "decrypt", *place.by_file("new"), "a.yml"))
    assert not {*names}.intersection(os.listxattr(place.tree / "a.yml")), "plaintext has none"


def test_closed_directory(place: Place) -> None:
    """A directory in which the user can write, but whose names only others can list, cannot be synced. Its files are
    replaced all the same."""
    place.put("folder/a.yml", sealed("old"))
    place.tree.chmod(0o755)
    (place.tree / "folder").chmod(0o300)
    if os.geteuid() == 0:
        for path in ("folder", "folder/a.yml"):
            os.chown(place.tree / path, NOBODY, NOBODY)
    silent("rekeyed", place.as_nobody(WITH, "rekey", *to_new(place), "folder/a.yml"))
    assert decrypted("new", place.get("folder/a.yml")) == TEXT, "it has the new password"


def test_what_cannot_be_replaced(place: Place) -> None:
    """A dry run reports what the run would refuse, and leaves no file. A named path that is no file is a failure."""
    place.put("a.yml", sealed("old"))
    os.link(place.tree / "a.yml", place.path / "second name")
    place.put("closed/b.yml", sealed("old"))
    os.mkfifo(place.path / "pipe")
    (place.tree / "closed").chmod(0o555)
    place.tree.chmod(0o777)
    before = place.files()
    done = place.as_nobody(ROTATE, *to_new(place), "--dry-run", ".", "../pipe", "/dev/null")
    whys = [f"{name}: it is not a regular file" for name in ("../pipe", "/dev/null")]
    whys.append(f"closed/b.yml: {place.tree}/closed: Permission denied")
    ended("it is refused", done, 1, "a.yml: it has 2 names (hard links)", *whys)
    assert place.files() == before, "they stay, and no other file is there"


# What happens to the vault while a run encrypts or decrypts it. The run with a prompt only checks the command line.
MEANWHILE = 'case "$*" in *=prompt*) ;; encrypt*|view*|rekey*) echo other | tee a.yml > new.yml ;; esac'
LINES = b"1\n2\n3\n"


def test_changed_meanwhile(place: Place, subtests: SubTests) -> None:
    """What another program writes during a run is not overwritten, even if there was no file."""
    old = place.by_file("old")
    files = versions(place, "a.yml", sealed("old", TEXT + LINES), b"", sealed("old", TEXT + LINES * 2))
    runs = [
        [ROTATE, *to_new(place), "a.yml"],
        [WITH, "decrypt", *old, "a.yml"],
        [EDIT, *old, "new.yml"],
        # git's name of the file, which messages have, is not that of ours.
        [MERGE, *old, *files[:3], "b.yml"],
    ]
    place.environment["EDITOR"] = place.script('echo a > "$1"', "editor")
    place.wrap_tool(MEANWHILE)
    for words in runs:
        (place.tree / "new.yml").unlink(missing_ok=True)
        place.put("a.yml", sealed("old", CHANGED + LINES))
        with subtests.test(" ".join(words[:2])):
            # For git, it is a conflict, and the file stays as it is.
            status = CONFLICT if MERGE in words else 1
            why = f"{words[-1]}: another program changed it in the meantime"
            ended("it is refused", place.run(*words), status, why)
            theirs = dict.fromkeys(["a.yml", "new.yml"], b"other\n")
            assert place.files() == theirs, "their change stays, and nothing is left"


# The directory of a vault moves away before the new vault takes its place.
MOVED = """
require_same = replacing._require_same
def move(target, old, before):
    if any(name.endswith(".new") for name in os.listdir(os.path.dirname(target))):
        os.rename(os.path.dirname(target), f"{os.path.dirname(target)}.away")
    require_same(target, old, before)
replacing._require_same = move
"""


def test_directory_that_moves_away(place: Place) -> None:
    """The message names the new file, which is left, and says why it is not needed."""
    place.put("folder/a.yml", sealed("old"))
    done = run_changed(place, ROTATE, MOVED, [*to_new(place), "folder/a.yml"])
    why = r"folder/\.ansible-vault-\w{8}\.new: No such file or directory; another program changed it in the meantime\n"
    assert re.search(why, done.stderr), done
    assert decrypted("old", place.get("folder.away/a.yml")) == TEXT, "the vault stays"


OLD = "--vault-password-file ../secrets/old"
# Where standard output goes, and why it cannot be written.
OUTPUTS = {">&-": "Bad file descriptor", "> /dev/full": "No space left on device", "| :": "Broken pipe"}


@pytest.mark.parametrize("redirection", OUTPUTS)
@pytest.mark.parametrize("line", (f"{CHECK} {OLD} a.yml", f"{TEXTCONV} {OLD} a.yml", f"{WITH} --help"))
def test_outputs_that_fail(place: Place, line: str, redirection: str) -> None:
    """Nor does a message that cannot be written end a run by anything but its status."""
    place.put("a.yml", sealed("old"))
    done = place.shell(f"{{ {line}; echo $? >&2; }} {redirection}")
    name = f"{TEXTCONV}: a.yml" if TEXTCONV in line else line.split()[0]
    assert done.stderr == f"{name}: standard output cannot be written: {OUTPUTS[redirection]}\n1\n"
    assert [place.shell(f"{line} > /dev/full {other}").returncode for other in ("2>&-", "2> /dev/full")] == [1, 1]


NO_MESSAGE = ("2>&-", "2> /dev/full")
# Command lines with a message, and their statuses.
STATUSES = {f"{name} --no-such-option": 2 for name in (CHECK, EDIT, HOOK, MERGE, ROTATE, TEXTCONV, WITH)}
STATUSES |= {f"{CHECK} .": 2, f"{WITH} view {OLD} missing.yml": 1, f"{CHECK} {OLD} missing.yml": 1}


@pytest.mark.parametrize("where", NO_MESSAGE)
@pytest.mark.parametrize("line, status", STATUSES.items())
def test_messages_that_fail(place: Place, line: str, status: int, where: str) -> None:
    """The status is the same."""
    assert [place.shell(f"{line} {each}").returncode for each in ("2> ../told", where)] == [status] * 2
    assert place.get("../told") != b""


@pytest.mark.parametrize("where", NO_MESSAGE)
def test_work_without_messages(place: Place, where: str) -> None:
    """It is done all the same, but nobody is told, and that is a failure."""
    for number in range(3):
        place.put(f"{number}.yml", sealed("old"))
    (place.tree / "folder").symlink_to("/usr")
    place.put("missing/a.yml", sealed("dev", label="dev"))
    words = " ".join([*to_new(place), "--vault-id", f"dev@{place.secret('dev2')}", "."])
    ended("a note", place.shell(f"{ROTATE} --dry-run {words}"), 1, "it is a link to a directory", "3 to be rotated")
    ended("a rotation", place.shell(f"{ROTATE} {words} {where}"), 1, "3 rotated, 0 already under", ", 0 failed")
    assert [decrypted("new", place.get(f"{number}.yml")) for number in range(3)] == [TEXT] * 3
    place.put("values.yml", block("dev") + block("old"))
    done = place.shell(f"{TEXTCONV} {OLD} values.yml {where}")
    assert (done.returncode, done.stdout.count("correct horse")) == (1, 1), "a value that nothing decrypts"


@pytest.mark.parametrize("streams", ("<&-", ">&-", "<&- >&- 2>&-"))
def test_closed_streams(place: Place, streams: str) -> None:
    """Neither the password in memory nor a file gets the number of a closed stream."""
    needs("bash")
    place.put("a.yml", sealed("old"))
    place.environment["EDITOR"] = place.script(CHANGE, "editor")
    merge = " ".join(versions(place, "b.yml", sealed("old"), sealed("old"), sealed("old", CHANGED)))
    typed = "--vault-password-file <(cat ../secrets/old)"
    for line in (f"{EDIT} {typed} a.yml", f"{WITH} decrypt {typed} a.yml", f"{MERGE} {typed} {merge}"):
        silent(line, place.shell(f"{line} {streams}", "bash"))
    found = place.get("a.yml"), decrypted("old", place.get("b.yml"))
    assert found == (CHANGED, CHANGED), "it is edited and decrypted, and it is merged"


def test_ignored_signals(place: Place) -> None:
    """What is ignored from the beginning stays ignored, except SIGCHLD: it would make a failure look like status 0."""
    place.put("a.yml", sealed("old"))
    done = place.run("env", "--ignore-signal=CHLD", CHECK, *place.by_file("dev"), "a.yml")
    ended("a wrong password", done, 1, "no secret decrypts this vault", "0 decrypted, 1 failed")
    place.wrap_tool("kill -HUP $PPID; sleep 0.05")
    ended("a rotation", place.shell(f"trap '' HUP; {ROTATE} {' '.join(to_new(place))} ."), 0, summary(1))
    assert decrypted("new", place.get("a.yml")) == TEXT, "it is done"


# Command lines in which the program, or another one that a companion starts, notes which signals it ignores.
STARTING = [f"{WITH} view {OLD} a.yml", f"{WITH} view {OLD} a.yml a.yml", f"{WITH} decrypt {OLD} --output b.yml a.yml"]
STARTING += [f"{WITH} edit {OLD} a.yml", f"{EDIT} {OLD} a.yml", f"{TEXTCONV} {OLD} a.yml", f"{CHECK} {OLD} a.yml"]
STARTING += [f"{CHECK} --vault-id ../script a.yml", f"{WITH} view --vault-id ../script a.yml"]


@pytest.mark.parametrize("ignored", ("", "trap '' HUP;", "trap '' PIPE XFSZ;"))
@pytest.mark.parametrize("line", STARTING)
def test_inherited_signals(place: Place, line: str, ignored: str) -> None:
    """A program that a companion starts ignores what the companion's caller ignores, but not SIGPIPE and SIGXFSZ, which
    Python ignores: at the front of a pipe to `head`, it ends without a message."""
    note = "grep SigIgn /proc/$$/status >> ../ignored"
    place.put("a.yml", sealed("old"))
    place.wrap_tool(note)
    place.script(f'{note}; cat "$HOME/secrets/old"')
    done = place.shell(f"{ignored} {line} > ../output", EDITOR=place.script(f"{note}; {CHANGE}", "editor"))
    assert done.returncode == 0, done
    direct = place.shell(f"{'' if 'PIPE' in ignored else ignored} sh -c 'grep SigIgn /proc/$$/status'").stdout
    noted = place.get("../ignored").decode().splitlines(keepends=True)
    assert len(noted) >= (2 if "script" in line or "dit" in line else 1), "the programs that were started"
    assert {*noted} == {direct}, "the signals that they ignore"

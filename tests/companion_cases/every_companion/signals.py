"""Signals at each step: nothing is lost or left, and the companion ends by the signal, whatever it waits for."""

import os
import re
import shutil
import signal
import subprocess
import time
from collections.abc import Callable
from contextlib import suppress
from functools import partial
from pathlib import Path
from random import Random
from typing import NamedTuple

import pytest

from ansible_vault_companions import signals
from companion_cases import CHANGE, CHANGED, CHECK, EDIT, HOOK, MERGE, ROTATE, TEXT, TEXTCONV, WITH, Companions, Place
from companion_cases import (
    block,
    decrypted,
    edit,
    run_changed,
    sealed,
    silent,
    texts,
    to_new,
    versions,
    wait_until,
)
from lib.needs import needs
from lib.processes import SECONDS, started
from lib.subtests import SubTests

RUNS = (EDIT, ROTATE, MERGE)
# An editor adds a line, and notes that it has. It does both itself, and the first in a single call: a program that it
# started could still write after a signal has ended the editor and the companion has cleaned up.
ADD = 'echo "more: text" >> "$1"; : > ../saved'
ADDED = TEXT + b"more: text\n"


def prepare_runs(place: Place) -> dict[str, list[str]]:
    """Write a vault, and return each run over it. A merge puts ours under the new password."""
    vaults = versions(place, "a.yml", sealed("old", CHANGED), sealed("old"), sealed("new", CHANGED))
    (place.tree / "a.yml").chmod(0o640)
    place.environment["EDITOR"] = place.script(f"{ADD}; sleep 0.1", "editor")
    old, new = place.by_file("old"), place.by_file("new")
    return {
        EDIT: [EDIT, *old, "a.yml"],
        ROTATE: [ROTATE, *to_new(place), "."],
        MERGE: [MERGE, *old, *new, *vaults],
    }


def check_whole(place: Place) -> None:
    """Check that the vault is the old or the new one, or a conflict of two whole ones, and that no file is left."""
    vault = place.get("a.yml")
    by_old, by_new = texts(vault, "old"), texts(vault, "new")
    assert len(by_old) == (2 if b"<<<<<<<" in vault else 1), ("how many envelopes there are", vault)
    for pair in zip(by_old, by_new):
        assert {TEXT, CHANGED, ADDED}.intersection(pair), ("an envelope is whole", vault)
    assert place.names() == ["a.yml"], "nothing is left in the tree"
    assert place.left() + os.listdir(place.temporary) == [], "nothing is left elsewhere"
    assert place.mode("a.yml") == "0o640", "the mode stays"


def check_edit(place: Place, errors: str, wanted: bytes = ADDED) -> None:
    """Check that a saved text is in the vault, or encrypted in a copy that the message names."""
    copies, kept = place.copies(), place.kept()
    is_replaced = decrypted("old", place.get("a.yml")) == wanted
    # The editor may be ended before it notes that it has saved.
    is_unsaved = not kept and not (place.path / "saved").exists()
    assert kept == ([] if is_replaced else [wanted]) or is_unsaved, "what was saved is kept"
    named = re.findall(r"; what you saved is encrypted in (.+)\n", errors)
    assert named == [*map(str, copies)], "the message says where"
    check_whole(place)


# Signals the companion, or its whole process group, at a step: before or after a call that creates, replaces or removes
# a file, that waits for a program, or that postpones signals or lets them through.
AT_STEP = """
import _signal, itertools, subprocess, tempfile
os.setsid()
companion = os.getpid()
steps = itertools.count()
def step():
    if os.getpid() == companion and next(steps) == {number}:
        os.mkdir("../sent")
        os.kill({receiver}, signal.SIGTERM)
def stepping(call):
    def made(*words, **options):
        step()
        done = call(*words, **options)
        step()
        return done
    return made
files = (tempfile, "mkdtemp mkstemp"), (os, "replace unlink open rmdir")
for owner, names in (*files, (_signal, "pthread_sigmask")):
    for name in names.split():
        setattr(owner, name, stepping(getattr(owner, name)))
subprocess.Popen.communicate = stepping(subprocess.Popen.communicate)
"""


@pytest.mark.parametrize("name", RUNS)
def test_at_each_step(cases: Companions, subtests: SubTests, name: str) -> None:
    for number in range(100):
        place = cases.place()
        companion, *words = prepare_runs(place)[name]
        # Calls have two steps, so each of the two receivers gets signals before calls, and after them.
        receiver = "os.getpid()" if number % 3 else "0"
        done = run_changed(place, companion, AT_STEP.format(number=number, receiver=receiver), words)
        is_sent = (place.path / "sent").exists()
        with subtests.test(f"step {number}"):
            assert done.returncode == (-signal.SIGTERM if is_sent else 0), done.stderr
            assert "Traceback" not in done.stderr, "no word of Python"
            if name == EDIT:
                check_edit(place, done.stderr)
            else:
                check_whole(place)
        if not is_sent:
            break
    assert 7 < number < 99, "there were such steps"


def test_at_each_step_of_the_hook(cases: Companions, git: None) -> None:
    """It ends without a word, and leaves nothing behind."""
    for number in range(100):
        place = cases.place()
        place.put("a.yml", sealed("old"))
        commit = "git add . && git -c user.name=a -c user.email=b commit -qm c"
        place.shell(f"git init -q && {commit} && echo b > b.yml && {commit}")
        words = ["--since", "HEAD~1"]
        done = run_changed(place, HOOK, AT_STEP.format(number=number, receiver="os.getpid()"), words)
        is_sent = (place.path / "sent").exists()
        assert (done.returncode, done.stderr) == (-signal.SIGTERM if is_sent else 0, ""), number
        assert os.listdir(place.temporary) == [], number
        if not is_sent:
            break
    assert 7 < number < 99, "there were such steps"


def read_signals(status: Path, field: str) -> set[int]:
    """Return the signals that a thread blocks or ignores, from its status or a copy of that."""
    bits = int(status.read_text().split(f"{field}:")[1].split()[0], 16)
    return {number for number in signal.valid_signals() if bits >> (number - 1) & 1}


def test_keys(place: Place) -> None:
    """The keys of a terminal belong to the editor: they do not end the edit, and the editor may act on them."""
    prepare_runs(place)
    keys = "kill -INT $PPID; kill -QUIT $PPID"
    editor = f"cat /proc/self/status > ../editing; {keys}; sed -i s/correct/wrong/"
    silent("the edit", place.run(EDIT, *place.by_file("old"), "a.yml", EDITOR=editor))
    for field in ("SigBlk", "SigIgn"):
        assert read_signals(place.path / "editing", field) & {signal.SIGINT, signal.SIGQUIT} == set(), field
    assert decrypted("old", place.get("a.yml")) == CHANGED, "it is edited"
    check_whole(place)


IGNORED = ("HUP", "INT", "QUIT", "TERM", "USR1")


@pytest.mark.parametrize("name", IGNORED)
def test_ignored_signals(place: Place, name: str) -> None:
    """What is ignored when an edit begins does not end it, while the editor runs or the text is encrypted."""
    prepare_runs(place)
    place.wrap_tool(f"kill -{name} $PPID")
    line = " ".join([EDIT, *place.by_file("old"), "a.yml"])
    editor = place.script(f"kill -{name} $PPID; {CHANGE}", "editor")
    silent("the edit", place.shell(f"trap '' {name}; {line}", EDITOR=editor))
    assert decrypted("old", place.get("a.yml")) == CHANGED, "it is edited"
    assert place.kept() == [], "nothing has to be kept"
    check_whole(place)


# The editor writes when it is asked to end, which happens twice.
LAST_WORDS = """
printf first > "$1"
trap 'sleep 0.3; printf last > "$1"; : > ../saved; exit' TERM
(trap '' TERM; sleep 0.1; kill -TERM $PPID; sleep 0.1; kill -TERM $PPID) > /dev/null 2>&1 &
while :; do sleep 0.05; done
"""


def test_last_words(place: Place) -> None:
    """The companion waits for what an editor writes when it is asked to end, even if it is asked twice."""
    prepare_runs(place)
    done = edit(place, LAST_WORDS, *place.by_file("old"), "a.yml")
    assert done.returncode == -signal.SIGTERM
    assert "a.yml: signal 15 ended the edit; " in done.stderr, "the reason"
    check_edit(place, done.stderr, b"last")


def sleeping(place: Place, before: str = "") -> str:
    """Write a password script that never ends, and return the path of the file that gets its process number."""
    text = f"{before} echo $$ > ../pid.new; mv ../pid.new ../pid; while :; do sleep 0.05; done"
    # Other shells let postponed signals through themselves.
    place.script(text, interpreter="/bin/bash")
    return str(place.path / "pid")


def is_running(number: str) -> bool:
    # A zombie has no command line.
    line = Path("/proc", number, "cmdline")
    return line.exists() and line.read_bytes() != b""


class Script(NamedTuple):
    """What a password script does first, whether it is stopped then, and whether the signal ends it."""

    before: str
    is_stopped: bool
    is_ended: bool


SCRIPTS = {
    "it waits": Script(before="", is_stopped=False, is_ended=True),
    "it is stopped": Script(before="", is_stopped=True, is_ended=True),
    "it ignores the signal": Script(before="trap '' TERM;", is_stopped=False, is_ended=False),
}


@pytest.mark.parametrize("script", SCRIPTS.values(), ids=SCRIPTS)
def test_password_script(place: Place, script: Script) -> None:
    """A password script gets the signal, even if it is stopped. If it ignores the signal, only the companion ends."""
    needs("bash")
    prepare_runs(place)
    file = Path(sleeping(place, script.before))
    with started([CHECK, "--vault-id", "../script", "a.yml"], cwd=place.tree, env=place.environment) as process:
        wait_until(file.exists, "the script")
        number = file.read_text().strip()
        if script.is_stopped:
            os.kill(int(number), signal.SIGSTOP)
        process.terminate()
        assert process.wait(SECONDS) == -signal.SIGTERM, "the companion ends by the signal"
    if script.is_ended:
        wait_until(lambda: not is_running(number), "the end of the script")
    else:
        assert is_running(number), "the script goes on"
        os.kill(int(number), signal.SIGKILL)


class Editor(NamedTuple):
    """What an editor does after it has saved, and whether the companion waits for the end of that."""

    text: str
    is_awaited: bool


EDITORS = {
    "it is stopped": Editor(text="kill -STOP $$", is_awaited=False),
    "it ignores the signal": Editor(text="trap '' TERM; sleep 0.3; : > ../waited", is_awaited=True),
}


@pytest.mark.parametrize("editor", EDITORS.values(), ids=EDITORS)
def test_editor(place: Place, editor: Editor) -> None:
    """The companion waits for an editor that ignores a signal, and one that is stopped goes on to be ended by it."""
    prepare_runs(place)
    kill = "(trap '' TERM; sleep 0.1; kill -TERM $PPID) > /dev/null 2>&1 &"
    done = edit(place, f"{ADD}; {kill} {editor.text}", *place.by_file("old"), "a.yml")
    assert done.returncode == -signal.SIGTERM, "the companion ends by the signal"
    assert (place.path / "waited").exists() == editor.is_awaited, "what the editor does in the end"
    assert "a.yml: signal 15 ended the edit; " in done.stderr, "the reason"
    check_edit(place, done.stderr)


def test_while_an_editor_starts(place: Place) -> None:
    """A signal that arrives before the companion knows its editor ends the editor, too."""
    prepare_runs(place)
    change = """
import subprocess, time
make = subprocess.Popen.__init__

def make_and_end(self, words, **options):
    make(self, words, **options)
    if words[0] == "sh":
        while not os.path.exists("../pid"):
            time.sleep(0.01)
        os.kill(os.getpid(), signal.SIGTERM)

subprocess.Popen.__init__ = make_and_end
"""
    text = f"{ADD}; exec > /dev/null 2>&1; echo $$ > ../pid.new; mv ../pid.new ../pid; while :; do sleep 0.05; done"
    words = [*place.by_file("old"), "a.yml"]
    done = run_changed(place, EDIT, change, words, EDITOR=place.script(text, "editor"))
    assert done.returncode == -signal.SIGTERM, done
    assert not is_running((place.path / "pid").read_text().strip()), "the editor is ended"
    check_edit(place, done.stderr)


# Seconds within which a signal ends a companion, whose work would take longer than that.
AT_ONCE = 8
# These take the place of a program, and note which companion has started it. The first goes on until nobody reads its
# output, the other until its input ends.
ENDLESS = ": > ../started-by-$PPID; while echo; do sleep 0.05; done; exit"
SILENT = ": > ../started-by-$PPID; cat > /dev/null; exit"
# The options of a password, which each command line is to have.
OLD = "--vault-password-file ../secrets/old"
PIPE = "--vault-password-file ../pipe"


class Wait(NamedTuple):
    """A companion that waits, with the numbers of its system call and of the descriptor, if there is one."""

    line: str
    call: str


WAITS = {
    "standard input": Wait(line=f"{EDIT} {OLD} --value secret b.yml", call="0 0x0 "),
    "a pipe with a password": Wait(line=f"{CHECK} {PIPE} a.yml", call="257 "),
    "a signal that was blocked": Wait(line=f"env --block-signal=TERM {CHECK} {PIPE} a.yml", call="257 "),
    "a pipe with a password of the alias": Wait(line=f"{WITH} view {PIPE} a.yml", call="257 "),
    "a reader": Wait(line=f"{TEXTCONV} {OLD} long.yml", call="1 0x1 "),
    "a reader of the alias": Wait(line=f"{WITH} view {OLD} long.yml long.yml", call="1 0x1 "),
}
# A companion that works, or that waits for git or for workers, whose programs are endless.
WORKS = {
    "a check": f"{CHECK} {OLD} many.yml",
    "a check of many files": f"{CHECK} {OLD} .",
    "a rotation": f"{ROTATE} {OLD} --new-vault-password-file ../secrets/new .",
    "values in a diff": f"{TEXTCONV} {OLD} many.yml",
    "files of the alias": f"{WITH} decrypt {OLD} a.yml many.yml",
    "the loading of an edit": f"{EDIT} {OLD} a.yml",
    "the loading of values": f"{EDIT} {OLD} many.yml",
    "values in a merge": f"{MERGE} {OLD} a.yml many.yml other.yml many.yml",
}
OF_HOOK = ["rev-parse", "check-attr", "cat-file"]
# Commands of git that answer questions, until their input ends.
SERVERS = ["cat-file"]
# Each with the commands of git that it waits for.
OF_GIT = {
    f"{MERGE} {OLD} --vault-password-file ../secrets/new": ["merge-file"],
    f"{HOOK} a.yml": ["ls-files", "diff-index", *OF_HOOK],
    f"{HOOK} --since HEAD~1": ["rev-list", "ls-tree", "diff-tree", *OF_HOOK],
}
PARSES = {
    "a check": f"{CHECK} {OLD} large.yml",
    "the hook": HOOK,
    "a diff": f"{TEXTCONV} {OLD} large.yml",
    "an edit": f"{EDIT} {OLD} large.yml",
}


def check_ended(place: Place, line: str, condition: Callable[[int], object], number: int = signal.SIGTERM) -> None:
    """Check that a signal ends a companion at once after this is true, without a word, and that nothing is left."""
    streams = {"stdin": subprocess.PIPE, "stdout": subprocess.PIPE, "stderr": subprocess.PIPE}
    words = ["sh", "-c", f"exec {line}"]
    with started(words, cwd=place.tree, env=place.environment, text=True, **streams) as process:
        wait_until(lambda: condition(process.pid), line)
        process.send_signal(number)
        status = process.wait(AT_ONCE)
        assert process.stderr and process.stderr.read() == "", "without a word"
        assert status == -number, "it ends by the signal"
    wait_until(lambda: list_programs(place.path) == [], "the end of its programs")
    assert (os.listdir(place.temporary), place.left()) == ([], []), "nothing is left"


def list_programs(folder: Path) -> list[str]:
    """Return the processes that are in this directory. A program of a companion that has ended may still begin."""
    found = []
    for link in Path("/proc").glob("[0-9]*/cwd"):
        with suppress(OSError):
            if link.readlink().is_relative_to(folder):
                found.append(link.parent.name)
    return found


def has_started_program(place: Place, number: int) -> bool:
    """Whether the companion with this process number has. A program that an earlier one left may still begin."""
    return (place.path / f"started-by-{number}").exists()


@pytest.mark.parametrize("line, call", WAITS.values(), ids=WAITS)
def test_waits(place: Place, line: str, call: str) -> None:
    prepare_runs(place)
    place.put("b.yml", block("old"))
    place.put("long.yml", sealed("old", b"text\n" * 100_000))
    os.mkfifo(place.path / "pipe")

    def is_waiting(number: int) -> bool:
        file = Path(f"/proc/{number}/syscall")
        first = file.read_text()
        time.sleep(0.05)
        return first == file.read_text() and first.startswith(call)

    check_ended(place, line, is_waiting)


@pytest.mark.parametrize("line", WORKS.values(), ids=WORKS)
def test_workers(place: Place, line: str) -> None:
    """The main thread takes all signals, so that it may postpone them while workers go on."""
    prepare_runs(place)
    place.put("many.yml", b"".join(block("old", b"%d" % number, name=f"key{number}") for number in range(100)))
    place.put("other.yml", block("old"))
    # The signals that each thread but the main one blocks. Its number may be lower than the main one's.
    masks: dict[str, set[int]] = {}
    ending = {signal.SIGTERM, signal.SIGINT, signal.SIGHUP}

    def is_working(number: int) -> bool:
        if not has_started_program(place, number):
            return False
        masks.clear()
        statuses = Path(f"/proc/{number}/task").glob("*/status")
        masks.update({path.parent.name: read_signals(path, "SigBlk") for path in statuses})
        # The main thread blocks signals for a moment while it starts a thread, which blocks them once it has begun.
        return not masks.pop(str(number)) and all(ending <= mask for mask in masks.values())

    place.wrap_tool(f'[ "$1" = --version ] || {{ {ENDLESS}; }}')
    for number in (signal.SIGTERM, signal.SIGINT):
        check_ended(place, line, is_working, number)


@pytest.mark.parametrize("line, command", [(line, command) for line in OF_GIT for command in OF_GIT[line]])
def test_git(place: Place, git: None, line: str, command: str) -> None:
    """Whatever it asks git."""
    merge = prepare_runs(place)[MERGE]
    # With a new plaintext, the hook asks what is beside it.
    place.put("plain.txt", b"plain\n")
    commit = "git -c user.name=a -c user.email=b commit -qm c --allow-empty"
    place.shell(f"git init -q && {commit} && git add . && {commit}")
    answer = SILENT if command in SERVERS else ENDLESS
    place.wrap_tool(f'case " $* " in *" {command} "*) {answer};; esac', "git")
    words = [line, *merge[-4:]] if MERGE in line else [line]
    check_ended(place, " ".join(words), partial(has_started_program, place))


@pytest.mark.parametrize("line", PARSES.values(), ids=PARSES)
def test_slow_parse(place: Place, git: None, line: str) -> None:
    """A signal ends a parse, which would take several seconds."""
    place.put("large.yml", block("old") + b"x: [%s]\n" % b", ".join([b"1"] * 900_000))
    place.shell("git init -q && git add .")

    def is_parsing(number: int) -> bool:
        ticks = Path(f"/proc/{number}/stat").read_text().rpartition(")")[2].split()[11]
        return int(ticks) > 0.5 * os.sysconf("SC_CLK_TCK")

    check_ended(place, line, is_parsing)


def test_later_edits(place: Place) -> None:
    """A signal ends the second edit of a command, and a resumed one. What was saved is kept each time, in one copy."""
    prepare_runs(place)
    place.put("b.yml", sealed("old"))
    kill = 'case "$1" in */b.yml) touch ../saved; kill -TERM $PPID; sleep 0.1;; esac'
    for words in (["a.yml", "b.yml"], ["--resume", "b.yml"], ["--resume", "b.yml"]):
        done = edit(place, f"{CHANGE}; {kill}", *place.by_file("old"), *words)
        assert (done.returncode, place.kept()) == (-signal.SIGTERM, [CHANGED]), done.stderr
        assert "b.yml: signal 15 ended the edit; what you saved is encrypted in " in done.stderr
        assert [decrypted("old", place.get(name)) for name in ("a.yml", "b.yml")] == [CHANGED, TEXT]
    assert (place.left(), os.listdir(place.temporary)) == ([], []), "nothing is left"


def test_long_encryption(place: Place) -> None:
    """A signal ends the work on what was saved. What was saved is kept."""
    place.put("vars.yml", block("old"))
    # What is saved is read until the signal ends that.
    change = """
from ansible_vault_companions.editing import yaml_draft
require_nodes = yaml_draft.require_nodes

def require_later(text):
    if os.path.exists("../saved"):
        os.kill(os.getpid(), signal.SIGTERM)
        while True:
            pass
    return require_nodes(text)

yaml_draft.require_nodes = require_later
"""
    editor = place.script('echo "a: !vault more" >> "$1"; : > ../saved', "editor")
    done = run_changed(place, EDIT, change, [*place.by_file("old"), "vars.yml"], EDITOR=editor)
    assert done.returncode == -signal.SIGTERM, done
    assert "signal 15 ended the edit; what you saved is " in done.stderr, "the reason"
    assert len(place.kept()) == 1, "what was saved is kept"


# Sends a signal where Python ignores exceptions, as in a finalizer, once signals have their actions.
IN_FINALIZER = """
from ansible_vault_companions import startup
class Finalizer:
    def __del__(self):
        os.kill(os.getpid(), {number})
        [*range(10)]
def prepare(before=startup.prepare_process):
    before()
    Finalizer()
startup.prepare_process = prepare
"""


@pytest.mark.parametrize("number", [signal.SIGTERM, signal.SIGINT])
def test_in_finalizer(place: Place, number: int) -> None:
    prepare_runs(place)
    place.wrap_tool(f'[ "$1" = --version ] || {{ {ENDLESS}; }}')
    done = run_changed(place, CHECK, IN_FINALIZER.format(number=int(number)), [*place.by_file("old"), "a.yml"])
    assert (done.returncode, done.stdout, done.stderr) == (-number, "", ""), "the signal ends it without a word"


# Sends a signal while Python ends, which ignores exceptions then, and gives signals their default actions.
AT_EXIT = """
import atexit, time
from ansible_vault_companions import startup
def stop():
    os.kill(os.getpid(), signal.SIGTERM)
    time.sleep(0.1)
def prepare(before=startup.prepare_process):
    before()
    atexit.register(stop)
startup.prepare_process = prepare
"""
BUG = """
from ansible_vault_companions import output
output.flush_streams = None
"""
# Of the kind that a lack of threads has, and of one below it.
FAILING = """
from ansible_vault_companions import output
def flush_streams():
    raise {}
output.flush_streams = flush_streams
"""
BUGS = [BUG, FAILING.format('RuntimeError("generator raised StopIteration")'), FAILING.format("NotImplementedError")]


@pytest.mark.parametrize("bug", ["", *BUGS])
def test_at_exit(place: Place, bug: str) -> None:
    prepare_runs(place)
    done = run_changed(place, CHECK, AT_EXIT + bug, [*place.by_file("old"), "a.yml"])
    assert done.returncode == -signal.SIGTERM, done
    assert ("Traceback" in done.stderr) == bool(bug), "a bug is reported nevertheless"


MOMENTS = 12
COMPANIONS = (EDIT, ROTATE, MERGE, CHECK, TEXTCONV, HOOK, WITH)
# Sends a signal to a companion some time after it has begun. Before that, Python answers SIGINT itself.
LATER = """
import subprocess
from ansible_vault_companions import startup
words = ["sh", "-c", f"sleep {moment}; kill -{number} {{os.getpid()}} 2> /dev/null"]
def prepare(before=startup.prepare_process):
    before()
    subprocess.Popen(words, stdout=subprocess.DEVNULL, stderr=subprocess.DEVNULL)
startup.prepare_process = prepare
"""


def prepare(place: Place, name: str) -> list[str]:
    """Return a command line of a companion, in a repository."""
    place.shell("git init -q && git -c user.name=a -c user.email=b commit -qm c --allow-empty")
    lines = {
        CHECK: [CHECK, *place.by_file("old"), "."],
        TEXTCONV: [TEXTCONV, *place.by_file("old"), "a.yml"],
        HOOK: [HOOK, "--since", "HEAD"],
        WITH: [WITH, "rekey", *to_new(place), "a.yml"],
        **prepare_runs(place),
    }
    return lines[name]


def check_end(place: Place, name: str, number: int, status: int, errors: str) -> None:
    """Check that a signal has ended a run by its default action, or came too late, and that nothing is torn or left."""
    assert status in (0, -number), errors
    assert "Traceback" not in errors and "KeyboardInterrupt" not in errors, errors
    shutil.rmtree(place.tree / ".git")
    if name == EDIT:
        check_edit(place, errors)
    else:
        check_whole(place)


@pytest.mark.parametrize("name", COMPANIONS)
def test_random_moments(cases: Companions, git: None, pytestconfig: pytest.Config, name: str) -> None:
    """From the first millisecond on."""
    random = Random(f"{pytestconfig.getoption('--seed')} {name}")
    # The time of the first run, to which no signal is sent.
    longest = 0.0
    for attempt in range(MOMENTS):
        place = cases.place()
        number = random.choice((signal.SIGTERM, signal.SIGHUP))
        words = prepare(place, name)
        begin = time.monotonic()
        streams = {"stdout": subprocess.DEVNULL, "stderr": subprocess.PIPE}
        with started(words, cwd=place.tree, env=place.environment, text=True, **streams) as process:
            if attempt == 0:
                process.wait(SECONDS)
                longest = time.monotonic() - begin
            else:
                time.sleep(random.uniform(0.001, longest))
                process.send_signal(number)
            errors = process.communicate(timeout=SECONDS)[1]
        check_end(place, name, number, process.returncode, errors)


@pytest.mark.parametrize("name", COMPANIONS)
def test_early_interrupts(cases: Companions, git: None, pytestconfig: pytest.Config, name: str) -> None:
    """While modules are imported, too."""
    random = Random(f"{pytestconfig.getoption('--seed')} {name}")
    statuses: set[int] = set()
    for _ in range(MOMENTS):
        place = cases.place()
        companion, *words = prepare(place, name)
        change = LATER.format(moment=random.uniform(0, 0.15), number=int(signal.SIGINT))
        done = run_changed(place, companion, change, words)
        check_end(place, name, signal.SIGINT, done.returncode, done.stderr)
        statuses.add(done.returncode)
    assert -signal.SIGINT in statuses, "a signal ends a run"


def test_just_before(monkeypatch: pytest.MonkeyPatch) -> None:
    """A signal that comes just before others are postponed ends the companion: it is not blocked itself."""
    set_mask = signal.pthread_sigmask
    before = set_mask(signal.SIG_BLOCK, ())

    def set_and_stop(how: int, numbers: set[int]) -> None:
        set_mask(how, numbers)
        if how == signal.SIG_BLOCK:
            raise signals.Stopped

    monkeypatch.setattr(signal, "pthread_sigmask", set_and_stop)
    with pytest.raises(signals.Stopped), signals.Postponement():
        pass
    blocked = set_mask(signal.SIG_SETMASK, before)
    assert blocked & signals.POSTPONED == set()

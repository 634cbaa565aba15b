"""A signal ends each companion while a message waits for somebody to read it, also where signals are postponed."""

import fcntl
import os
import signal
import subprocess
import termios
import time
from contextlib import suppress
from random import Random
from typing import Any

import pytest

from companion_cases import CHANGE, CHECK, EDIT, HOOK, MERGE, ROTATE, TEXTCONV, WITH, Companions, Place, sealed
from companion_cases import versions, wait_until
from companion_cases.repository import under_git

# What an editor does before a message follows: nothing is changed, something is that cannot be written, or the editor
# fails.
EDITORS = {"unchanged": ":", "not written": f"{CHANGE}; rm a.yml", "a failed editor": f"{CHANGE}; exit 3"}
SIGNALS = [signal.SIGTERM, signal.SIGHUP, signal.SIGUSR1, signal.SIGALRM]
PATIENCE = 20


def end_later(place: Place, words: list[str], **options: Any) -> int:
    """Run a program, send it one of the signals after the editor's end or once it waits, and return its status."""
    options |= {"cwd": place.tree, "env": place.environment, "stdin": subprocess.DEVNULL}
    with subprocess.Popen(words, stdout=subprocess.DEVNULL, **options) as program:
        if words[0] == EDIT:
            wait_until((place.path / "saved").exists, "the editor")
        time.sleep(Random(words[0]).random() * 2)
        program.send_signal(number := Random(words[0]).choice(SIGNALS))
        try:
            return program.wait(PATIENCE) + number
        except subprocess.TimeoutExpired:
            program.kill()
            raise


def fill_pipe(writer: int) -> None:
    os.set_blocking(writer, False)
    with suppress(BlockingIOError):
        while True:
            os.write(writer, b"x")
    os.set_blocking(writer, True)


def list_runs(place: Place) -> dict[str, list[str]]:
    """Return a command line of each companion that leads to a message."""
    place.put("a.yml", sealed("old"))
    under_git(place, "a.yml ansible-vault\n")
    place.put("b.yml", b"x: plain\n")
    files = versions(place, "m.yml", sealed("old"), sealed("old", b"a\n"), sealed("old", b"b\n"))
    place.put("a.yml", b"x: plain\n")
    place.shell("git add -A")
    place.put("a.yml", sealed("old"))
    dev = place.by_file("dev")
    lines = [[ROTATE, *dev, *place.by_file("new", "new-"), "a.yml"], [CHECK, *dev, "a.yml"], [TEXTCONV, *dev, "a.yml"]]
    lines += [[WITH, "view", *dev, "a.yml", "b.yml"], [HOOK], [MERGE, *place.by_file("old"), *files]]
    return {line[0]: line for line in lines}


@pytest.mark.parametrize("what", EDITORS)
def test_edits(place: Place, what: str) -> None:
    place.put("a.yml", sealed("old"))
    place.environment["EDITOR"] = place.script(f"({EDITORS[what]}); status=$?; touch ../saved; exit $status", "editor")
    reader, writer = os.pipe()
    fill_pipe(writer)
    assert end_later(place, [EDIT, *place.by_file("old"), "a.yml"], stderr=writer) == 0
    os.close(reader)
    os.close(writer)


@pytest.mark.parametrize("name", [ROTATE, CHECK, TEXTCONV, WITH, HOOK, MERGE])
def test_others(cases: Companions, git: None, name: str) -> None:
    first, place = cases.place(), cases.place()
    assert first.run(*list_runs(first)[name]).stderr, "there is a message"
    reader, writer = os.pipe()
    fill_pipe(writer)
    assert end_later(place, list_runs(place)[name], stderr=writer) == 0
    os.close(reader)
    os.close(writer)


@pytest.mark.parametrize("words", [[WITH, "view", "-J", "a.yml"], [WITH, "encrypt_string", "-J", "x"]])
def test_stopped_terminal(place: Place, words: list[str]) -> None:
    """Ctrl-S has stopped the output of the terminal on which a password is asked for."""
    place.put("a.yml", sealed("old"))
    controller, terminal = os.openpty()
    termios.tcflow(terminal, termios.TCOOFF)
    options: dict[str, Any] = {"stderr": subprocess.DEVNULL, "pass_fds": [terminal], "start_new_session": True}
    options["preexec_fn"] = lambda: fcntl.ioctl(terminal, termios.TIOCSCTTY, 0)
    assert end_later(place, words, **options) == 0
    os.close(terminal)
    os.close(controller)

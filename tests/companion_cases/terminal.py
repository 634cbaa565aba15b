"""Run a program at a terminal of its own, and answer its questions there."""

import fcntl
import os
import re
import select
import signal
import subprocess
import termios
from contextlib import suppress
from typing import Any, NamedTuple

from companion_cases import Place
from lib.ansible import ansible_release
from lib.processes import SECONDS
from shells import all_shown

# Precedes the words of a program that reads the terminal.
READING = ["sh", "-c", 'exec "$@" < /dev/tty', "sh"]
# An interactive shell at the terminal, with job control, which prints this when it is ready.
READY = "ready> "
SHELL = ["sh", "-c", f"PS1='{READY}' exec bash --norc --noediting -i < /dev/tty > /dev/tty 2>&1"]
# The session leader, which is not ended by the keys that end the program.
LEADER = 'trap : INT QUIT; "$@"; exit $?'
# Hides our programs from Ansible's tool, and gives it UTF-8.
FOR_ANSIBLE = {"PATH": os.environ["PATH"], "LC_ALL": "C.UTF-8"}


def type_for_ansible(line: str) -> str:
    """Return the same command line for Ansible's tool. Since 2.19, it creates a file only at a terminal, or with this
    option."""
    return re.sub("^create", "create --skip-tty-check", line) if ansible_release() >= (2, 19) else line


class Session(NamedTuple):
    """The result of a run, with the status as a shell reports it."""

    returncode: int
    stdout: str
    stderr: str
    # What the terminal showed, without the carriage returns that it adds.
    shown: str
    # Whether the terminal still shows what is typed.
    echoes: bool


def ask(place: Place, *words: str, answers: list[tuple[str, bytes]], **variables: str) -> Session:
    """Run a program, wait for each question, and type the answer. The standard streams are not the terminal."""
    controller, terminal = os.openpty()
    options: dict[str, Any] = {
        **{"stdin": subprocess.DEVNULL, "stdout": subprocess.PIPE, "stderr": subprocess.PIPE, "text": True},
        **{"cwd": place.tree, "env": place.environment | variables, "pass_fds": [terminal], "start_new_session": True},
        "preexec_fn": lambda: fcntl.ioctl(terminal, termios.TIOCSCTTY, 0),
    }
    shown = b""
    with subprocess.Popen(["sh", "-c", LEADER, "sh", *words], **options) as program:
        os.close(terminal)
        try:
            for question, answer in answers:
                shown += shown_until(controller, question.encode())
                os.write(controller, answer)
            output, errors = program.communicate(timeout=SECONDS)
        except BaseException:
            # The program would wait for an answer forever.
            os.killpg(program.pid, signal.SIGKILL)
            raise
    shown += all_shown(controller)
    echoes = termios.tcgetattr(controller)[3] & termios.ECHO != 0
    os.close(controller)
    return Session(program.returncode, output, errors, shown.decode().replace("\r", ""), echoes)


def shown_until(controller: int, question: bytes) -> bytes:
    """Wait until what is shown ends with the question, and return it."""
    shown = b""
    with suppress(OSError):
        while not shown.endswith(question) and select.select([controller], [], [], SECONDS)[0]:
            shown += os.read(controller, 4096)
    assert shown.endswith(question), f"{question!r} is not asked: {shown!r}"
    return shown

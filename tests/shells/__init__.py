"""What bash, zsh and fish offer for a command line of the program or of a companion."""

import contextlib
import functools
import os
import pathlib
import re
import select
import shlex
import shutil
import tempfile
from collections.abc import Iterator, Mapping

from lib.processes import SECONDS, run_text, started

HERE = pathlib.Path(__file__).resolve().parent
COMPLETIONS = HERE.parent.parent / "completions"
NAME = "ansible-vault"

# Calls the function as readline does: with words that are also split at `=` and `@`, and with the text that a match
# replaces, which keeps its `@`.
BASH = r"""
source "$1"
eval "$2"
text=$3
shift 3
COMP_WORDS=("$@")
COMP_CWORD=$(($# - 1))
[[ $(complete -p "$1") =~ -F\ ([^ ]+) ]]
"${BASH_REMATCH[1]}" "$1" "$text"
printf '%s\n' "${COMPREPLY[@]}"
"""
# Drops fish's own completion for the other tool of this name first.
FISH = """
complete -C "$argv[2] " >/dev/null
complete -e $argv[2]
source $argv[1]
eval "$argv[4]"
complete -C "$argv[3]"
"""


def readline_words(line: str) -> list[str]:
    """Return the line's words, of which the last is the one to complete."""
    words: list[str] = []
    for word in line.split(" "):
        words += [piece for piece in re.split("([=@])", word) if piece] or [""]
    return words


def readline_text(line: str) -> str:
    """Return the text that a match replaces."""
    word = line.split(" ")[-1].split("=")[-1]
    return "@" + word.split("@")[-1] if "@" in word else word


def printed(command: list[str], folder: pathlib.Path) -> set[str]:
    return {line for line in run_text(command, cwd=folder, check=True).stdout.split("\n") if line}


def bash(line: str, folder: pathlib.Path, alias: str = "") -> set[str]:
    """Return what bash offers for a line, after the definition of an alias if there is one."""
    script = str(COMPLETIONS / f"{NAME}.bash")
    command = ["bash", "--norc", "-c", BASH, "bash", script, alias, readline_text(line), *readline_words(line)]
    return printed(command, folder)


@contextlib.contextmanager
def bash_at_terminal(folder: pathlib.Path, environment: Mapping[str, str]) -> Iterator[int]:
    """Start bash on a terminal, and yield the other side of the terminal."""
    controller, terminal = os.openpty()
    streams = dict.fromkeys(("stdin", "stdout", "stderr"), terminal)
    command = ["bash", "--norc", "--noprofile", "-i"]
    with started(command, cwd=folder, env=environment, start_new_session=True, **streams):
        os.close(terminal)
        yield controller
        os.close(controller)


def all_shown(terminal: int) -> bytes:
    """Return everything shown until the shell on the other side ends, or waits for the end of a word."""
    shown = b""
    with contextlib.suppress(OSError):
        while select.select([terminal], [], [], SECONDS)[0]:
            shown += os.read(terminal, 4096)
    return shown


def typed_in_bash(line: str, folder: pathlib.Path, alias: str = ":") -> list[str]:
    """Type a command line on a terminal and end it with a tab. Return the arguments that the command gets."""
    body = "{ printf 'got'; printf '<%s>' \"$@\"; echo .; }"
    definitions = f"{NAME}() {body}; {NAME}-with() {body}; {alias}"
    setup = f"bind 'set bell-style none'; source {shlex.quote(f'{COMPLETIONS / NAME}.bash')}; {definitions}"
    with bash_at_terminal(folder, os.environ) as terminal:
        os.write(terminal, f"{setup}\n{NAME} {line}\t\nexit\n".encode())
        shown = all_shown(terminal).decode()
    return shown.split("got<")[-1].split(">.\r")[0].split("><")


def fish(line: str, folder: pathlib.Path, alias: str = "") -> set[str]:
    script = COMPLETIONS / f"{NAME}.fish"
    found = printed(["fish", "--no-config", "-c", FISH, str(script), line.split(" ")[0], line, alias], folder)
    return {match.split("\t")[0] for match in found}


@functools.cache
def zsh_functions() -> tempfile.TemporaryDirectory[str]:
    """Return a directory with the completion under zsh's name for it. zsh caches there which functions it found."""
    functions = tempfile.TemporaryDirectory()
    shutil.copy(COMPLETIONS / f"{NAME}.zsh", pathlib.Path(functions.name) / f"_{NAME}")
    return functions


def zsh(line: str, folder: pathlib.Path, alias: str = "") -> set[str]:
    return printed([str(HERE / "zsh_matches"), zsh_functions().name, line, alias], folder)


SHELLS = {"bash": bash, "zsh": zsh, "fish": fish}

"""Long work shows at the terminal how far it is, and nothing of that stays."""

import os
import re
import subprocess

import pytest

from companion_cases import CHECK, EDIT, MERGE, ROTATE, TEXTCONV, WITH, Place, block, summary, to_new, versions
from lib.needs import needs, needs_pyyaml
from lib.processes import SECONDS, started
from shells import all_shown

NUMBER = 24
# All runs of the program take over two seconds, one after another.
SLOW = '[ "$1" = --version ] || sleep 0.15'
VALUE, FILE = r"value \d+ of 24", r"file \d+ of \d+, \d+ values"
# What each companion shows meanwhile; nothing if git may show its output in a pager.
SHOWN = {CHECK: FILE, ROTATE: FILE, EDIT: VALUE, MERGE: r"value \d+ of 48", WITH: r"file \d+ of 24", TEXTCONV: ""}


def prepare(place: Place) -> dict[str, list[str]]:
    """Write files, and return each command line."""
    old, names = place.by_file("old"), [f"key{number}" for number in range(NUMBER)]
    # Equal envelopes would be decrypted once.
    values, others = (
        b"".join(block("old", f"{text} of {name}".encode(), name=name) for name in names) for text in ("one", "another")
    )
    place.put("values.yml", values)
    for name in names:
        place.put(f"{name}.yml", block("old").partition(b"\n")[2].replace(b" ", b"") + b"\n")
    return {
        CHECK: [CHECK, *old, "values.yml"],
        ROTATE: [ROTATE, *to_new(place), "values.yml"],
        EDIT: [EDIT, *old, "values.yml"],
        MERGE: [MERGE, *old, *versions(place, "merged.yml", values, values + b"port: 1\n", b"a: 1\n" + others)],
        WITH: [WITH, "rekey", *to_new(place), *(f"{name}.yml" for name in names)],
        TEXTCONV: [TEXTCONV, *old, "values.yml"],
    }


def run_at_terminal(place: Place, words: list[str]) -> str:
    """Run a program on one processor, with a terminal for its output and messages, and return what it writes."""
    controller, terminal = os.openpty()
    words = ["taskset", "-c", str(min(os.sched_getaffinity(0))), *words]
    streams = {"stdin": subprocess.DEVNULL, "stdout": terminal, "stderr": terminal}
    with started(words, cwd=place.tree, env=place.environment | {"EDITOR": "true"}, **streams) as process:
        os.close(terminal)
        shown = all_shown(controller).decode()
        assert process.wait(SECONDS) == 0, shown
    os.close(controller)
    return shown.replace("\r\n", "\n")


def read_screen(shown: str) -> str:
    """Return what a terminal has in the end. What follows a carriage return is written over the line."""
    lines = []
    for line in shown.split("\n"):
        text = ""
        for piece in line.split("\r"):
            text = piece + text[len(piece) :]
        lines.append(text.rstrip(" "))
    return "\n".join(lines)


@pytest.mark.parametrize("name", SHOWN)
def test_progress(place: Place, name: str) -> None:
    needs_pyyaml()
    needs("taskset", "git")
    words = prepare(place)[name]
    expected = {
        CHECK: place.run(*words).stdout if name == CHECK else "",
        ROTATE: f"values.yml: {NUMBER} rotated\n{summary(NUMBER)}\n",
        EDIT: place.run(*words, EDITOR="true").stderr if name == EDIT else "",
        TEXTCONV: place.run(*words).stdout if name == TEXTCONV else "",
    }
    place.wrap_tool(SLOW)
    shown = run_at_terminal(place, words)
    lines = {piece.rstrip() for piece in re.split("[\r\n]", shown) if piece.startswith(f"{name}: ")}
    messages = {*expected.get(name, "").splitlines()}
    assert all(re.fullmatch(f"{name}: {SHOWN[name]}", line) for line in lines - messages), "in numbers alone"
    assert (len(lines - messages) > 2) == (SHOWN[name] != ""), "it is shown, and changes"
    assert read_screen(shown) == expected.get(name, ""), "what stays"


@pytest.mark.parametrize("name", [CHECK, EDIT])
def test_not_shown(place: Place, name: str) -> None:
    """What reads messages that go elsewhere sees none of it."""
    needs_pyyaml()
    words = prepare(place)[name]
    place.wrap_tool(SLOW)
    assert "\r" not in place.run("taskset", "-c", str(min(os.sched_getaffinity(0))), *words, EDITOR="true").stderr

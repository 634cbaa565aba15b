"""The stored texts of the parser, in `tests/texts`: the help of the program and of each command, and the answer to each
invalid command line, below that line.

The texts are clap's; no other source has them. They were stored as the program printed them and proofread against the
help of each option in `crates/vault_request`. `tests/store_texts PROGRAM` stores the help and the answers again, also
to lines that were added; proofread whatever it changes.
"""

import re
from pathlib import Path

from lib.paths import ROOT
from lib.processes import run_text
from model.options import OPTIONS

FOLDER = ROOT / "tests" / "texts"
PROMPT = "$ ansible-vault"
# The names of the texts: for the program without a command, and for each command.
PROGRAM = "program"
NAMES = [PROGRAM, *OPTIONS]


def help_path(name: str) -> Path:
    return FOLDER / f"{name}.help.txt"


def mistakes_path(name: str) -> Path:
    return FOLDER / f"{name}.mistakes.txt"


def stored_mistakes(name: str) -> dict[str, str]:
    """Return the stored texts, by command line."""
    # Lines and their texts take turns, each with an empty line at its end.
    _, *parts = re.split(rf"^{re.escape(PROMPT)} ?(.*)\n", mistakes_path(name).read_text(), flags=re.MULTILINE)
    return {line: text.removesuffix("\n") for line, text in zip(parts[::2], parts[1::2])}


def printed(program: str, words: list[str]) -> str:
    done = run_text([program, *words])
    return done.stdout + done.stderr


def write(program: str) -> None:
    """Store what the program prints."""
    for name in NAMES:
        command = [] if name == PROGRAM else [name]
        help_path(name).write_text(printed(program, [*command, "--help"]))
        lines = [*stored_mistakes(name)] if mistakes_path(name).exists() else [f"{name} --loud"]
        texts = [f"{PROMPT} {line}".rstrip() + f"\n{printed(program, line.split())}\n" for line in lines]
        mistakes_path(name).write_text("".join(texts))

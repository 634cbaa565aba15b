"""The commands of a document: those with a prompt, which have outputs, and all others."""

import re
from typing import NamedTuple


class Step(NamedTuple):
    """A command as the README shows it, on one or more lines, and its output, where dots match any text."""

    command: str
    wanted: str

    def is_met_by(self, printed: str) -> bool:
        pattern = ".*".join(re.escape(part) for part in self.wanted.split("..."))
        return re.fullmatch(pattern, printed.strip("\n"), re.DOTALL) is not None


def blocks(document: str) -> list[str]:
    found: list[str] = re.findall(r"(?<=\n\n)(?: {4}.*\n)+", document)
    return [re.sub("^ {4}", "", block, flags=re.MULTILINE) for block in found]


def steps(document: str) -> list[Step]:
    """Return the commands with a prompt, and what the README shows below each of them."""
    return [step for block in blocks(document) for step in steps_of(block)]


def steps_of(block: str) -> list[Step]:
    # Commands and outputs take turns.
    _, *parts = re.split(r"^\$ ((?:.*\\\n)*.*)$", block, flags=re.MULTILINE)
    return [Step(command, printed.strip("\n")) for command, printed in zip(parts[::2], parts[1::2])]


def fenced(document: str, language: str) -> list[str]:
    """Return the blocks between fences."""
    found: list[str] = re.findall(rf"^```{language}\n((?:.*\n)*?)```$", document, re.MULTILINE)
    return found


def commands(document: str) -> list[str]:
    """Return the commands of blocks without prompts, each on one or more lines, without comments."""
    found = []
    for block in blocks(document):
        if not block.startswith("$ "):
            found += [re.sub(r"\s+#.*", "", command) for command in re.findall(r"(?:.*\\\n)*.+", block)]
    return found

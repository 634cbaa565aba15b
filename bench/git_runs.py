#!/usr/bin/env -S python3 -B
"""Time ansible-vault-textconv and the alias on one file, and git commands that start textconv for many versions.

Usage: git_runs.py PROGRAM [--versions N] [--vaults N] [--runs N] [--quick]

Beside each is the same with a script that only starts the program, the least that a companion could take, and with
`view` of Ansible's tool. For that, git shows a tenth of the versions and vaults, since all would take minutes. These
two show no values, so they get the value's envelope as a file. A git command runs once: it starts textconv many times.
The table, of processor time, is for docs/compare.md, which leaves out the script.
"""

import shlex
import subprocess
import sys
import tempfile
from collections.abc import Callable
from pathlib import Path
from typing import NamedTuple

ROOT = Path(__file__).resolve().parent.parent
sys.path.insert(0, str(ROOT / "tests"))

from lib.ansible import ansible_vault
from lib.installed import run_make
from lib.scripts import write_script
from measured import Task, describe_processor, options, spread, time_in_turn
from model.vaults import seal, yaml_block

LABEL = b"prod"
PASSWORDS = {"old": b"the old password", "new": b"the new password"}
OURS = "companion"
FLOOR = "script"
THEIRS = "Ansible's view"
TOOLS = [OURS, FLOOR, THEIRS]
# The part of the versions and vaults that git shows with Ansible's tool.
SHARE = 10


class Row(NamedTuple):
    name: str
    tasks: dict[str, Task]
    runs: int
    # How many versions or vaults each tool shows; one if it is a single file.
    counts: dict[str, int]


def make_commit(number: int, files: dict[str, bytes]) -> bytes:
    """Return a commit for `git fast-import`."""
    pieces = [b"commit refs/heads/main\ncommitter a <a@b> %d +0000\ndata 0\n" % number]
    for name, content in files.items():
        pieces.append(b"M 644 inline %s\ndata %d\n%s\n" % (name.encode(), len(content), content))
    return b"".join(pieces)


def make_repository(folder: Path, commits: list[dict[str, bytes]]) -> None:
    subprocess.run(["git", "init", "--quiet", "--initial-branch=main", str(folder)], check=True)
    attributes = {".gitattributes": b"*.yml diff=ansible-vault\n"}
    stream = b"".join(make_commit(number, files) for number, files in enumerate([attributes, *commits]))
    subprocess.run(["git", "-C", str(folder), "fast-import", "--quiet"], input=stream, check=True)
    subprocess.run(["git", "-C", str(folder), "reset", "--quiet", "--hard"], check=True)


class Rows:
    """The rows, with the installed companions, the files and the repositories that they need."""

    def __init__(self, program: str, folder: Path, runs: int) -> None:
        self.folder, self.runs = folder, runs
        run_make(program, "install", "DESTDIR=", f"PREFIX={folder}/installed", check=True)
        self.companions = f"{folder}/installed/bin/ansible-vault"
        for name, password in PASSWORDS.items():
            (folder / name).write_bytes(password + b"\n")
        self.ansible = ansible_vault()

    def list_commands(self, *passwords: str) -> dict[str, list[str]]:
        """Return, for each tool, the words that show a file with these passwords."""
        words = [f"--vault-id=prod@{self.folder}/{name}" for name in passwords]
        line = shlex.join([self.companions, "view", *words])
        script = write_script(self.folder / f"show-{'-'.join(passwords)}", f'exec {line} "$1"')
        commands = {OURS: [f"{self.companions}-textconv", *words], FLOOR: [str(script)]}
        if self.ansible is not None:
            commands[THEIRS] = [self.ansible, "view", *words]
        return commands

    def put(self, name: str, content: bytes) -> str:
        (self.folder / name).write_bytes(content)
        return str(self.folder / name)

    def show_files(self) -> list[Row]:
        """Return the rows that show one file."""
        text = b"secret\n"
        envelope = seal(PASSWORDS["old"], text, LABEL)
        vault, value = self.put("vault.yml", envelope), self.put("value.yml", yaml_block(envelope, b"password"))
        commands = self.list_commands("old")
        accepts = lambda output: text in output
        alone = {tool: Task([*words, vault], b"", accepts) for tool, words in commands.items() if tool != OURS}
        ours = {
            "textconv, a vault": [*commands[OURS], vault],
            "textconv, a file with one value": [*commands[OURS], value],
            "the alias, `view`": [f"{self.companions}-with", "view", *commands[OURS][1:], vault],
        }
        counts = dict.fromkeys(TOOLS, 1)
        return [
            Row(name, {OURS: Task(words, b"", accepts), **alone}, self.runs, counts) for name, words in ours.items()
        ]

    def show_history(self, versions: int) -> Row:
        """Return a row in which each commit changes a vault."""
        commits = [{"vault.yml": seal(PASSWORDS["old"], b"version %d\n" % n, LABEL)} for n in range(versions)]
        make_repository(self.folder / "history", commits)
        counts = count_shown(versions)
        tasks = {}
        for tool, words in self.list_commands("old").items():
            command = ["log", "-p", f"-n{counts[tool]}"]
            accepts = lambda output, count=counts[tool]: output.count(b"\n+version ") == count
            tasks[tool] = self.make_git_task("history", words, command, accepts)
        return Row("`git log -p`, {} versions", tasks, 1, counts)

    def show_rotation(self, vaults: int) -> Row:
        """Return a row in which each vault gets a new password."""
        names = [f"{number}.yml" for number in range(vaults)]
        make_repository(
            self.folder / "rotated",
            [{name: seal(PASSWORDS[each], name.encode(), LABEL) for name in names} for each in PASSWORDS],
        )
        counts = count_shown(vaults)
        tasks = {}
        for tool, words in self.list_commands("new", "old").items():
            command = ["diff", "HEAD~", "--", *names[: counts[tool]]]
            # The plaintexts are the same, and git shows no difference.
            tasks[tool] = self.make_git_task("rotated", words, command, lambda output: output == b"")
        return Row("`git diff`, {} rotated vaults", tasks, 1, counts)

    def make_git_task(
        self, repository: str, words: list[str], command: list[str], accepts: Callable[[bytes], bool]
    ) -> Task:
        """Return a git command with these words as textconv."""
        setting = f"diff.ansible-vault.textconv={shlex.join(words)}"
        git = ["git", "-C", str(self.folder / repository), "--no-pager", "-c", setting]
        return Task([*git, *command], b"", accepts)


def count_shown(count: int) -> dict[str, int]:
    """Return how many versions or vaults each tool shows."""
    return {OURS: count, FLOOR: count, THEIRS: max(1, count // SHARE)}


def describe_time(row: Row, tool: str, milliseconds: list[float]) -> str:
    """Return the median with its spread; or the time of a git command and, if it showed fewer versions, how many."""
    if row.counts[OURS] == 1:
        return spread(milliseconds).shown(" ms")
    seconds = f"{milliseconds[0] / 1000:.1f} s"
    return seconds if row.counts[tool] == row.counts[OURS] else f"{seconds} for {row.counts[tool]}"


def print_row(row: Row) -> None:
    times = {tool: took.processor for tool, took in time_in_turn(row.tasks, row.runs).items()}
    cells = [describe_time(row, tool, times[tool]) if tool in times else "" for tool in TOOLS]
    each = {tool: spread(took).median / row.counts[tool] for tool, took in times.items()}
    cells += [f"{each[tool] / each[FLOOR]:.1f}" if tool in each else "" for tool in (OURS, THEIRS)]
    print("|", " | ".join([row.name.format(row.counts[OURS]), *cells]), "|", flush=True)


def main() -> None:
    parser = options(__doc__)
    parser.add_argument("program")
    parser.add_argument("--versions", type=int, default=300, metavar="N")
    parser.add_argument("--vaults", type=int, default=500, metavar="N")
    parser.add_argument("--runs", type=int, default=11, metavar="N", help="of each command that shows one file")
    args = parser.parse_args()
    if args.quick:
        args.versions = 2
        args.vaults = 2
        args.runs = 1
    with tempfile.TemporaryDirectory() as folder:
        rows = Rows(args.program, Path(folder), args.runs)
        print(f"Processor time on {describe_processor()}:\n")
        print(f"| | {' | '.join(TOOLS)} | companion / script | Ansible / script |\n|---|---|---|---|---|---|")
        for row in [*rows.show_files(), rows.show_history(args.versions), rows.show_rotation(args.vaults)]:
            print_row(row)


if __name__ == "__main__":
    main()

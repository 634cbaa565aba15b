#!/usr/bin/env -S python3 -B
"""Time the commands of the program and of Ansible's own tool, in alternation, and also `view` through the alias.

Usage: commands.py PROGRAM [--runs N] [--time clock|processor] [--only START] [--chart FILE.svg] [--quick]

Each tool runs five times or more. The table shows the median, and the minimum and the maximum in parentheses. A ratio
compares the medians, with the extremes of single turns in parentheses. It is of processor time, which other work on the
machine affects least; a ratio of wall-clock times is printed only if both times agree. Below the times are the
instructions of one run of this tool, as Valgrind counts them. The tests' own Python makes the vaults. Ansible's tool is
found as `tests/lib/ansible.py` says. The last lines are a table, some of which is in docs/compare.md. The chart shows
the time of `view` against the size of the vault.
"""

import argparse
import json
import os
import shutil
import subprocess
import sys
import tempfile
from collections.abc import Callable, Iterator
from functools import cached_property, partial
from pathlib import Path
from typing import Any, NamedTuple

HERE = Path(__file__).resolve().parent
TESTS = HERE.parent / "tests"
sys.path.insert(0, str(TESTS))

from lib.ansible import ansible_vault
from lib.counts import count_instructions, parts_of
from lib.installed import run_make
from measured import CLOCK, PROCESSOR, Spread, Task, Times, describe_processor, measure_in_turn, options, spread
from model.vaults import seal

SIZES = {"1 KiB": 1 << 10, "64 KiB": 1 << 16, "1 MiB": 1 << 20, "16 MiB": 1 << 24}
CHART_SIZES = {"4 KiB": 1 << 12, "16 KiB": 1 << 14, "256 KiB": 1 << 18, "4 MiB": 1 << 22}
QUICK_SIZES, QUICK_CHART_SIZES = {"1 KiB": 1 << 10}, {"4 KiB": 1 << 12}
# The default, and the least number of runs whose median is shown.
RUNS = 5
RIGHT = b"the right password"
OURS = "ours"
THEIRS = "theirs"
ALIAS = "the alias"
# The alias should take at most this many times as long as the tool.
ALIAS_GOAL = 2.0
PYTHON = "/usr/bin/python3"
# How many times faster these rows should be.
GOALS = {
    "view, 1 KiB": 23,
    "view, 1 MiB": 13,
    "view, 16 MiB": 3.4,
    "encrypt, 1 MiB": 8,
    "rekey, 1 KiB": 13,
}
# The rows of the table for docs/compare.md, and their names.
TABLE = {
    "view, 1 KiB": "`view`, 1 KiB",
    "view, 1 MiB": "`view`, 1 MiB",
    "view, 16 MiB": "`view`, 16 MiB",
    "view, 1 KiB, via the alias": "`view FILE`, 1 KiB, via the alias",
    "view, 1 KiB, the tenth password fits": "`view`, 1 KiB, nine wrong passwords and the right one",
}
TIMES = {CLOCK: "the clock", PROCESSOR: "processor time"}


class Row(NamedTuple):
    name: str
    size: int
    tasks: dict[str, Task]


class Rows:
    """The rows of the table. Each row makes its own vault and its own files."""

    def __init__(self, program: str, ansible: str | None, folder: Path) -> None:
        self.program = program
        self.ansible = ansible
        self.folder = folder
        right = self.file("right", RIGHT + b"\n")
        self.new = self.file("new", b"the new one\n")
        self.alone = ["--vault-password-file", right]
        wrong = [self.file(f"wrong{index}", b"wrong password %d\n" % index) for index in range(9)]
        ids = [word for index, path in enumerate(wrong) for word in ("--vault-id", f"w{index}@{path}")]
        self.tenth = [*ids, "--vault-id", f"right@{right}"]

    def file(self, name: str, content: bytes) -> str:
        (self.folder / name).write_bytes(content)
        return str(self.folder / name)

    def both(self, ours: Task, theirs: list[str], **other: Any) -> dict[str, Task]:
        """Return our task and theirs. By default, theirs has the same input and the same check."""
        tasks = {OURS: Task([self.program, *ours.command], ours.stdin, ours.accepts)}
        if self.ansible is not None:
            stdin = other.pop("stdin", ours.stdin)
            tasks[THEIRS] = Task([self.ansible, *theirs], stdin, other.pop("accepts", ours.accepts), **other)
        return tasks

    def view(self, name: str, size: int, options: list[str]) -> Row:
        text = plaintext(size)
        task = Task(["view", *options], seal(RIGHT, text), lambda output: output.rstrip(b"\n") == text.rstrip(b"\n"))
        return Row(f"view, {name}", size, self.both(task, ["decrypt", "--output", "-", *options]))

    def view_file(self, name: str, size: int) -> Row:
        text = plaintext(size)
        path = self.file(f"vault{size}", seal(RIGHT, text))
        task = Task(["view", *self.alone, path], b"", lambda output: output.rstrip(b"\n") == text.rstrip(b"\n"))
        return Row(f"view FILE, {name}", size, self.both(task, ["decrypt", *self.alone, "--output", "-", path]))

    def encrypt(self, name: str, size: int) -> Row:
        text = plaintext(size)
        length = len(seal(RIGHT, text))
        # Ansible's tool may end its output with one more line feed.
        task = Task(["encrypt", *self.alone], text, lambda output: 0 <= len(output) - length <= 1)
        return Row(f"encrypt, {name}", size, self.both(task, ["encrypt", "--output", "-", *self.alone]))

    def rekey(self, name: str, size: int) -> Row:
        """Ansible's tool rekeys in place, so it gets a new file before each run."""
        vault = seal(RIGHT, plaintext(size))
        options = [*self.alone, "--new-vault-password-file", self.new]
        path = self.file(f"rekeyed{size}", vault)
        task = Task(["rekey", *options], vault, lambda output: len(output) == len(vault))
        prepare = lambda: Path(path).write_bytes(vault)
        theirs = self.both(task, ["rekey", *options, path], stdin=b"", accepts=lambda _: True, prepare=prepare)
        return Row(f"rekey, {name}", size, theirs)

    @cached_property
    def companion(self) -> list[str]:
        """How ansible-vault-with starts, as `make install` puts it there."""
        prefix = self.folder / "installed"
        run_make(str(self.program), "install", "DESTDIR=", f"PREFIX={prefix}", check=True)
        return [PYTHON, "-ISBXutf8", str(prefix / "bin/ansible-vault-with")]

    def alias(self, name: str, size: int) -> Row:
        """Compare `view` by the tool, by ansible-vault-with, and by Ansible's tool."""
        text = plaintext(size)
        path = self.file(f"vault{size}", seal(RIGHT, text))
        accepts = lambda output: output == text
        tasks = {
            OURS: Task([self.program, "view", *self.alone, path], b"", accepts),
            ALIAS: Task([*self.companion, "view", *self.alone, path], b"", accepts),
        }
        if self.ansible is not None:
            tasks[THEIRS] = Task([self.ansible, "decrypt", *self.alone, "--output", "-", path], b"", accepts)
        return Row(f"view, {name}, via the alias", size, tasks)

    def chosen(self, sizes: dict[str, int], start: str) -> Iterator[Row]:
        """Yield the rows whose names begin with `start`. The others are not prepared."""
        makers: dict[str, Callable[[], Row]] = {}
        for name, size in sizes.items():
            makers[f"view, {name}"] = partial(self.view, name, size, self.alone)
        tenth = "1 KiB, the tenth password fits"
        makers[f"view, {tenth}"] = partial(self.view, tenth, 1 << 10, self.tenth)
        for kind, make in (("view FILE", self.view_file), ("encrypt", self.encrypt), ("rekey", self.rekey)):
            for name, size in sizes.items():
                makers[f"{kind}, {name}"] = partial(make, name, size)
        for name, maker in makers.items():
            if name.startswith(start):
                yield maker()


def plaintext(size: int) -> bytes:
    return ((b"secret: value %d\n" % size) * (size // 16 + 1))[:size]


def ratio_of(times: dict[str, Times], kind: str) -> Spread:
    """Return how many times faster ours is: by the medians, and in single turns."""
    ours, theirs = times[OURS].of(kind), times[THEIRS].of(kind)
    turns = spread([their / our for our, their in zip(ours, theirs)])
    return turns._replace(median=spread(theirs).median / spread(ours).median)


def has_ratio(times: dict[str, Times], kind: str) -> bool:
    """Return whether there is a meaningful ratio."""
    return THEIRS in times and (kind == PROCESSOR or all(took.is_steady for took in times.values()))


def line_of(name: str, times: dict[str, Times], kind: str) -> str:
    line = f"{name:36}"
    for tool in (OURS, THEIRS):
        if tool in times:
            took = times[tool]
            line += f" {spread(took.clock)!s:>24} {spread(took.processor)!s:>24} {took.memory:7.1f}"
    if THEIRS in times:
        line += f" {ratio_of(times, kind)!s:>20}" if has_ratio(times, kind) else "   none: clock and processor differ"
        line += f"  (goal: {GOALS[name]})" if name in GOALS else ""
    return line


def heading(with_theirs: bool, kind: str) -> str:
    columns = f" {'clock, ms':>24} {'processor, ms':>24} {'MiB':>7}"
    ratio = f"{columns} {'ratio, of ' + TIMES[kind]:>20}   (ours, then theirs)"
    return f"{'':36}{columns}" + ratio * with_theirs


def print_table(measured: dict[str, dict[str, Times]], runs: int, kind: str) -> None:
    """Print the table from which docs/compare.md has its figures."""
    print(f"\nTimes of {TIMES[kind]}: the median of {runs} runs, and in parentheses the least and the most.")
    print(f"Processor: {describe_processor()}\n")
    print("| | this tool | Ansible's tool | times faster |\n|---|---|---|---|")
    for name, title in TABLE.items():
        if has_ratio(measured.get(name, {}), kind):
            ours, theirs = (spread(measured[name][tool].of(kind)) for tool in (OURS, THEIRS))
            print(f"| {title} | {ours.shown(' ms')} | {theirs.shown(' ms')} | {ratio_of(measured[name], kind)} |")


def measure_alias(row: Row, runs: int, kind: str) -> dict[str, Times]:
    """Print the times of the alias, and return them in place of ours."""
    measured = measure_in_turn(row.tasks, runs)
    times = {tool: spread(took.of(kind)) for tool, took in measured.items()}
    ratio = f"the alias takes {times[ALIAS].median / times[OURS].median:.2f} times as long as ours (goal: {ALIAS_GOAL})"
    each = ", ".join(f"{tool} {took.shown(' ms')}" for tool, took in times.items())
    print(f"{row.name}: {each}; {ratio}")
    return measured | {OURS: measured[ALIAS]}


def print_instructions(row: Row) -> None:
    """Print the instructions of a run of this tool, which are the same on each machine."""
    if shutil.which("valgrind"):
        _, functions = count_instructions(row.tasks[OURS].command, row.tasks[OURS].stdin)
        parts = ", ".join(f"{part} {count / 1e6:.1f}" for part, count in parts_of(functions).items())
        print(f"{'':36} millions of instructions: {parts}", flush=True)


def draw(points: list[dict[str, Any]], path: str) -> None:
    subprocess.run([str(HERE / "chart.py"), path], input=json.dumps(points).encode(), check=True)


def chart_points(rows: Rows, sizes: dict[str, int], args: argparse.Namespace) -> list[dict[str, Any]]:
    points = []
    for name, size in sorted(sizes.items(), key=lambda item: item[1]):
        for tool, took in measure_in_turn(rows.alias(name, size).tasks, args.runs).items():
            points.append({"size": size, "tool": tool, "milliseconds": spread(took.of(args.time)).median})
    return points


def parsed_arguments() -> argparse.Namespace:
    parser = options(__doc__)
    parser.add_argument("program")
    parser.add_argument("--runs", type=int, default=RUNS)
    parser.add_argument("--time", choices=list(TIMES), default=PROCESSOR, help="what ratios, table and chart are of")
    parser.add_argument("--only", default="", help="rows whose names begin so")
    parser.add_argument("--chart")
    args = parser.parse_args()
    if args.quick:
        args.runs = 1
    elif args.runs < RUNS:
        parser.error(f"at least {RUNS} runs")
    return args


def main() -> None:
    args = parsed_arguments()
    ansible = ansible_vault()
    if ansible is None:
        print("Ansible's own tool (Debian's package ansible-core) is not installed: no ratios")
    measured: dict[str, dict[str, Times]] = {}
    with tempfile.TemporaryDirectory() as folder:
        rows = Rows(os.path.abspath(args.program), ansible, Path(folder))
        sizes, more = (QUICK_SIZES, QUICK_CHART_SIZES) if args.quick else (SIZES, CHART_SIZES)
        print(heading(ansible is not None, args.time))
        for row in rows.chosen(sizes, args.only):
            measured[row.name] = measure_in_turn(row.tasks, args.runs)
            print(line_of(row.name, measured[row.name], args.time), flush=True)
            print_instructions(row)
        if rows.alias.__name__.startswith(args.only):
            row = rows.alias("1 KiB", SIZES["1 KiB"])
            measured[row.name] = measure_alias(row, args.runs, args.time)
        if args.chart:
            draw(chart_points(rows, sizes | more, args), args.chart)
    print_table(measured, args.runs, args.time)


if __name__ == "__main__":
    main()

#!/usr/bin/env -S python3 -B
"""Show where the time of `view` and `encrypt` goes, with a program that runs each part alone.

Usage: parts.py PROGRAM [--quick]. All figures are processor time, measured in turn in one run. The least of several
rounds counts, since other work on the machine slows each part by a different share. Beside a part is the least time
that it could take: the compressions of `sha2` alone, or a copy of the envelope. The kernel's part is the whole
program's. The rest is start-up, arguments, line ends and anything that is not measured alone.
"""

import ctypes
import os
import subprocess
import sys
import tempfile
import time
from pathlib import Path
from statistics import mean
from typing import NamedTuple

sys.path.insert(0, str(Path(__file__).resolve().parent.parent / "tests"))

from measured import BENCHMARK, options
from model.vaults import seal

ROUNDS = 9
KIB, MIB = 1 << 10, 1 << 20
SIZES = {"1 KiB": KIB, "1 MiB": MIB, "16 MiB": 16 * MIB}
PASSWORD = b"a password"
# The number of compressions in a derivation.
DERIVATION = 60_000
BLOCK = 64
# Repeat a part until it has processed this many bytes, but at most MOST times.
REPEATED, MOST = 8 * MIB, 2_000


class Used(NamedTuple):
    """Processor time in milliseconds, in all and in the kernel."""

    whole: float
    kernel: float


class Part(NamedTuple):
    """A program that runs a part as often as its last argument says, and its input."""

    words: list[str]
    repeats: int
    stdin: str = os.devnull

    def milliseconds(self) -> float:
        """Return the time of one repetition, without the program's start-up."""
        total, startup = (run([*self.words, str(times)], self.stdin).whole for times in (self.repeats, 0))
        return (total - startup) / self.repeats


def run(command: list[str], stdin: str) -> Used:
    with open(stdin, "rb") as file, tempfile.TemporaryFile() as stdout:
        child = subprocess.Popen(command, stdin=file, stdout=stdout)
        _, status, used = os.wait4(child.pid, 0)
    child.returncode = os.waitstatus_to_exitcode(status)
    if child.returncode != 0:
        sys.exit(f"{' '.join(command)}: status {child.returncode}")
    return Used((used.ru_utime + used.ru_stime) * 1000, used.ru_stime * 1000)


def copy_milliseconds(size: int) -> float:
    source, target = ctypes.create_string_buffer(size), ctypes.create_string_buffer(size)
    repeats = times_for(size)
    start = time.process_time()
    for _ in range(repeats):
        ctypes.memmove(target, source, size)
    return (time.process_time() - start) * 1000 / repeats


def times_for(size: int) -> int:
    return min(MOST, max(1, REPEATED // size))


def tag_compressions(size: int) -> int:
    """Return the compressions of HMAC: the inner key block, the padded message, and two for the outer hash."""
    return 1 + (size + 9 + BLOCK - 1) // BLOCK + 2


class Parts:
    """What is measured, by name: each part alone, and whole runs of the program."""

    def __init__(self, program: str, folder: Path, sizes: dict[str, int]) -> None:
        self.parts = {
            "derivation": Part([BENCHMARK, "derive"], 5),
            "compressions": Part([BENCHMARK, "compressions"], 5),
            "tag": Part([BENCHMARK, "tag"], 5),
        }
        self.runs: dict[str, tuple[list[str], str]] = {}
        self.copies: dict[str, int] = {}
        password = folder / "password"
        password.write_bytes(PASSWORD)
        for name, size in sizes.items():
            text, vault = folder / f"text{size}", folder / f"vault{size}"
            text.write_bytes(bytes(size))
            vault.write_bytes(seal(PASSWORD, bytes(size)))
            self.parts[f"read {name}"] = Part([BENCHMARK, "read"], times_for(size), str(vault))
            self.parts[f"write {name}"] = Part([BENCHMARK, "write", str(size)], times_for(size))
            self.parts[f"counter mode {name}"] = Part([BENCHMARK, "counter-mode", str(size)], times_for(size))
            for command, stdin in (("view", vault), ("encrypt", text)):
                words = [program, command, "--vault-password-file", str(password)]
                self.runs[f"{command} {name}"] = words, str(stdin)
            self.copies[name] = vault.stat().st_size

    def measure(self, rounds: int) -> tuple[dict[str, float], dict[str, float]]:
        """Return the milliseconds of each, by name, and the kernel's fraction of each run."""
        taken: dict[str, list[float]] = {}
        kernel: dict[str, list[float]] = {}
        for _ in range(rounds):
            for name, part in self.parts.items():
                taken.setdefault(name, []).append(part.milliseconds())
            for name, length in self.copies.items():
                taken.setdefault(f"copy {name}", []).append(copy_milliseconds(length))
            for name, (words, stdin) in self.runs.items():
                used = run(words, stdin)
                taken.setdefault(name, []).append(used.whole)
                kernel.setdefault(name, []).append(used.kernel)
        # The kernel's time is counted in clock ticks, so only the mean of several runs is meaningful.
        shares = {name: mean(times) / mean(taken[name]) for name, times in kernel.items()}
        return {name: min(times) for name, times in taken.items()}, shares


def print_run(command: str, name: str, taken: dict[str, float], kernel: float) -> None:
    whole = taken[f"{command} {name}"]
    compressions = tag_compressions(SIZES[name])
    digits = "read" if command == "view" else "write"
    one = taken["compressions"] / DERIVATION
    copy = taken[f"copy {name}"]
    parts = {
        "derivation": (taken["derivation"], f"{DERIVATION:,} compressions: {taken['compressions']:.2f} ms"),
        "digits " + {"read": "read", "write": "written"}[digits]: (taken[f"{digits} {name}"], f"a copy: {copy:.2f} ms"),
        "counter mode": (taken[f"counter mode {name}"], ""),
        "tag": (
            taken["tag"] * compressions / tag_compressions(MIB),
            f"{compressions:,} compressions: {one * compressions:.2f} ms",
        ),
        "kernel": (kernel * whole, ""),
    }
    parts["the rest"] = (whole - sum(time_of_part for time_of_part, _ in parts.values()), "")
    print(f"{command} of {name}: {whole:.2f} ms")
    for part, (time_of_part, floor) in parts.items():
        print(f"  {part:16} {time_of_part:9.2f} ms {100 * time_of_part / whole:6.1f} %   {floor}".rstrip())


def main() -> None:
    parser = options(__doc__)
    parser.add_argument("program")
    args = parser.parse_args()
    rounds, sizes = (1, {"1 KiB": KIB}) if args.quick else (ROUNDS, SIZES)
    with tempfile.TemporaryDirectory() as folder:
        taken, kernel = Parts(os.path.abspath(args.program), Path(folder), sizes).measure(rounds)
    print(f"parts of the processor time, the least of {rounds} rounds, and the least that a part could take:")
    for command in ("view", "encrypt"):
        for name in sizes:
            print_run(command, name, taken, kernel[f"{command} {name}"])


if __name__ == "__main__":
    main()

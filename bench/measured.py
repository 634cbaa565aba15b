"""Run programs in turn, and measure the wall-clock time, processor time and peak memory of each."""

import argparse
import os
import subprocess
import sys
import tempfile
import threading
import time
from dataclasses import dataclass, field
from pathlib import Path
from statistics import median
from typing import Callable, NamedTuple

# The program that runs parts of the work alone; `make bin/vault_bench` builds it.
BENCHMARK = str(Path(__file__).resolve().parent.parent / "bin" / "vault_bench")
CLOCK, PROCESSOR = "clock", "processor"
# If wall-clock and processor times differ by more than this fraction, the machine was busy.
TOLERANCE = 0.5
# How often to look at the memory of a running program, in seconds.
SAMPLING_INTERVAL = 0.0005


def options(description: str | None) -> argparse.ArgumentParser:
    """Return a parser with the options that every benchmark has."""
    parser = argparse.ArgumentParser(description=description, formatter_class=argparse.RawDescriptionHelpFormatter)
    parser.add_argument("--quick", action="store_true", help="one short round, whose figures mean nothing")
    return parser


@dataclass
class Task:
    """A command, its standard input, and a check of its standard output. `prepare` runs before each run and is not
    timed."""

    command: list[str]
    stdin: bytes
    accepts: Callable[[bytes], bool]
    prepare: Callable[[], None] = lambda: None


class Spread(NamedTuple):
    """The median, the minimum and the maximum of several figures."""

    median: float
    minimum: float
    maximum: float

    def __str__(self) -> str:
        return self.shown("")

    def shown(self, unit: str) -> str:
        return f"{figure(self.median)}{unit} ({figure(self.minimum)} to {figure(self.maximum)})"


def describe_processor() -> str:
    """Return the name of the processor, and whether it has instructions for SHA-256, which OpenSSL uses."""
    fields: dict[str, str] = {}
    for line in Path("/proc/cpuinfo").read_text().splitlines():
        name, _, value = line.partition(":")
        fields[name.strip()] = value.strip()
    has_sha = "sha_ni" in fields["flags"].split()
    return f"{fields['model name']}, {'with' if has_sha else 'without'} SHA extensions"


def figure(value: float) -> str:
    """Format with one decimal below 100, and with none from 100 on."""
    return f"{value:.1f}" if value < 100 else f"{value:.0f}"


def spread(values: list[float]) -> Spread:
    return Spread(median(values), min(values), max(values))


@dataclass
class Times:
    """The wall-clock and processor times of each run, in milliseconds, and the peak memory, in MiB."""

    clock: list[float] = field(default_factory=list)
    processor: list[float] = field(default_factory=list)
    memory: float = 0.0

    def of(self, kind: str) -> list[float]:
        return self.clock if kind == CLOCK else self.processor

    @property
    def is_steady(self) -> bool:
        """Whether both times agree. Only then does a ratio of wall-clock times mean anything."""
        return median(self.clock) <= (1 + TOLERANCE) * median(self.processor)


def peak_memory(process: int, seen: list[float]) -> None:
    """Note the peak resident memory in MiB while the process runs. After its end, the system's figure would include
    this program's own memory."""
    try:
        while True:
            status = Path(f"/proc/{process}/status").read_text()
            [line] = [line for line in status.splitlines() if line.startswith("VmHWM:")]
            seen.append(int(line.split()[1]) / 1024)
            time.sleep(SAMPLING_INTERVAL)
    except (OSError, ValueError):
        pass


def run_once(task: Task, times: Times) -> None:
    task.prepare()
    with tempfile.TemporaryFile() as stdin, tempfile.TemporaryFile() as stdout:
        stdin.write(task.stdin)
        stdin.seek(0)
        start = time.perf_counter()
        child = subprocess.Popen(task.command, stdin=stdin, stdout=stdout, stderr=subprocess.DEVNULL)
        _, status, used = os.wait4(child.pid, 0)
        clock = time.perf_counter() - start
        child.returncode = os.waitstatus_to_exitcode(status)
        stdout.seek(0)
        if child.returncode != 0 or not task.accepts(stdout.read()):
            sys.exit(f"{' '.join(task.command)[:200]}: status {child.returncode}, or another output")
    times.clock.append(clock * 1000)
    times.processor.append((used.ru_utime + used.ru_stime) * 1000)


def memory_of(task: Task) -> float:
    """Return the peak memory of a separate run, since looking at it takes time."""
    task.prepare()
    seen: list[float] = [0.0]
    with tempfile.TemporaryFile() as stdin:
        stdin.write(task.stdin)
        stdin.seek(0)
        child = subprocess.Popen(task.command, stdin=stdin, stdout=subprocess.PIPE, stderr=subprocess.DEVNULL)
        sampler = threading.Thread(target=peak_memory, args=(child.pid, seen))
        sampler.start()
        child.communicate()
        sampler.join()
        child.wait()
    return max(seen)


def time_in_turn(tasks: dict[str, Task], runs: int) -> dict[str, Times]:
    """Run each task once, then each again, and so on. Return the times of each run, by task."""
    times = {name: Times() for name in tasks}
    for _ in range(runs):
        for name, task in tasks.items():
            run_once(task, times[name])
    return times


def measure_in_turn(tasks: dict[str, Task], runs: int) -> dict[str, Times]:
    """Run each task once, then each again, and so on. Return what each run took, by task."""
    times = time_in_turn(tasks, runs)
    for name, task in tasks.items():
        times[name].memory = max(memory_of(task) for _ in range(2))
    return times

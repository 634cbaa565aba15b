#!/usr/bin/env -S python3 -B
"""Time counter mode over 16 MiB in this repository, in plain C with tables, and in OpenSSL: counter_mode.py [--quick]

The time of a run with one pass is subtracted from the time of a run with two, so that start-up and memory drop out. The
best of several rounds counts.
"""

import os
import pathlib
import re
import shutil
import subprocess
import tempfile
import time

from measured import BENCHMARK, options

HERE = pathlib.Path(__file__).resolve().parent
LENGTH = 16 * 1024 * 1024
ROUNDS = 15
# The value of OPENSSL_ia32cap that hides AES-NI and the vector instructions that replace it.
NO_AES = "~0x200000200000000"


def best_seconds(commands: dict[str, list[str]], rounds: int) -> dict[str, float]:
    """Return the least time of one pass of each command. The commands take turns."""
    times: dict[tuple[str, int], float] = {}
    for _ in range(rounds):
        for name, command in commands.items():
            for passes in (1, 2):
                begin = time.perf_counter()
                subprocess.run([*command, str(LENGTH), str(passes)], check=True, stdout=subprocess.DEVNULL)
                taken = time.perf_counter() - begin
                key = name, passes
                times[key] = min(times.get(key, taken), taken)
    return {name: times[name, 2] - times[name, 1] for name in commands}


def last_block(command: list[str]) -> str:
    """Return what a command prints for one pass over the length plus three bytes."""
    run = subprocess.run([*command, str(LENGTH + 3), "1"], check=True, capture_output=True, text=True)
    return run.stdout


def openssl_speed(environment: dict[str, str]) -> float | None:
    """Return OpenSSL's own figure for pieces of 16 KiB, in MB/s, or None."""
    command = ["openssl", "speed", "-seconds", "1", "-bytes", "16384", "-evp", "aes-256-ctr"]
    run = subprocess.run(command, env={**os.environ, **environment}, capture_output=True, text=True)
    found = re.search(r"^aes-256-ctr\s+([0-9.]+)k", run.stdout, re.IGNORECASE | re.MULTILINE)
    return float(found.group(1)) / 1000 if found else None


def main() -> None:
    rounds = 1 if options(__doc__).parse_args().quick else ROUNDS
    compiler = shutil.which("clang") or shutil.which("cc")
    with tempfile.TemporaryDirectory() as folder:
        commands = {"this repository": [BENCHMARK, "counter-mode"]}
        if compiler:
            baseline = [str(pathlib.Path(folder) / "counter_mode")]
            subprocess.run([compiler, "-O2", "-o", *baseline, str(HERE / "counter_mode.c")], check=True)
            commands["C tables"] = baseline
            if last_block(baseline) != last_block(commands["this repository"]):
                raise SystemExit("counter mode: the C program gives other bytes")
        seconds = best_seconds(commands, rounds)
    speeds: dict[str, float | None] = {name: LENGTH / 1e6 / taken for name, taken in seconds.items()}
    if not compiler:
        print("C tables: no C compiler is installed")
    if shutil.which("openssl"):
        speeds["OpenSSL without AES instructions"] = openssl_speed({"OPENSSL_ia32cap": NO_AES})
        speeds["OpenSSL"] = openssl_speed({})
    else:
        print("OpenSSL: not installed")
    print("AES-256 in counter mode over 16 MiB:")
    ours = LENGTH / 1e6 / seconds["this repository"]
    for name, speed in speeds.items():
        if speed is None:
            print(f"  {name:<34} no figure")
        else:
            print(f"  {name:<34}{speed:8.0f} MB/s  {speed / ours:6.2f} of this repository's")


if __name__ == "__main__":
    main()

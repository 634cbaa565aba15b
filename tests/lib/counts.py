"""Count the instructions of a run by function, which do not depend on what else the machine does.

Valgrind's callgrind counts them. Standard input and output are files, since the size of a read from a pipe
varies. The C library picks its copying functions by processor, so the ones for the newest processors are disabled.
"""

import re
import tempfile
from collections import Counter
from collections.abc import Callable
from functools import partial
from pathlib import Path
from typing import Any, NamedTuple

from lib import processes

ENVIRONMENT = {"GLIBC_TUNABLES": "glibc.cpu.hwcaps=-AVX512F,-AVX512VL,-AVX2,-AVX_Fast_Unaligned_Load,-ERMS,-FSRM"}
# The parts of a run, and the prefixes of their functions' names. All other functions are the rest.
PARTS: dict[str, str | tuple[str, ...]] = {
    "SHA-256": "sha2::block256::compress",
    "AES": "vault_aes::key::Key::block",
    "digits read": "vault_text::hexadecimal::",
    # The code for the lines of an envelope is inlined into the function that writes it.
    "digits written": ("vault_text::writing::", "vault_cli::runs::write_or_report"),
}
REST, TOTAL = "the rest", "total"
# What the compiler and the kit write into a program, and the processor it is built for.
BUILT_BY = re.compile(rb"Linker: LLD [\d.]+|rattle logic=[0-9a-f]{16}|x86-64-v\d(?=, which)")


class Done(NamedTuple):
    """How a run ended."""

    status: int
    output: bytes
    message: bytes


def built_by(program: str) -> str:
    """Return the compiler and the kit that built a program, and the processor it is built for."""
    found = {match[0].removeprefix(b"Linker: ").decode() for match in BUILT_BY.finditer(Path(program).read_bytes())}
    return ", ".join(sorted(found))


def run(command: list[str], stdin: bytes, **options: Any) -> Done:
    with tempfile.TemporaryFile() as given, tempfile.TemporaryFile() as output:
        given.write(stdin)
        given.seek(0)
        done = processes.run(command, given, stdout=output, **options)
        output.seek(0)
        return Done(done.returncode, output.read(), done.stderr)


def functions_of(profile: str) -> Counter[str]:
    """Count the instructions of each function itself, from a callgrind file without compressed names. The line after
    `calls=` is the cost of the call, which is counted in the called function."""
    counts: Counter[str] = Counter()
    without_calls = re.sub(r"^calls=.*\n.*\n", "", profile, flags=re.MULTILINE)
    _, *functions = without_calls.split("\nfn=")
    for function in functions:
        name, _, lines = function.partition("\n")
        costs = re.findall(r"^\d+ (\d+)$", lines, re.MULTILINE)
        counts[name.strip()] += sum(int(cost) for cost in costs)
    return counts


def calls_of(profile: str) -> Counter[str]:
    """Count the calls of each function."""
    counts: Counter[str] = Counter()
    for name, count in re.findall(r"^cfn=(.*)\ncalls=(\d+) ", profile, re.MULTILINE):
        counts[name] += int(count)
    return counts


def counted(read: Callable[[str], Counter[str]], command: list[str], stdin: bytes) -> tuple[Done, Counter[str]]:
    with tempfile.TemporaryDirectory() as folder:
        options = ["--compress-strings=no", "--compress-pos=no", f"--callgrind-out-file={folder}/profile"]
        log = f"--log-file={folder}/log"
        done = run(["valgrind", "--tool=callgrind", *options, log, *command], stdin, env=ENVIRONMENT)
        return done, read(Path(folder, "profile").read_text(errors="replace"))


count_instructions = partial(counted, functions_of)
count_calls = partial(counted, calls_of)


def part_of(name: str) -> str:
    """Return the part that has the function with this name."""
    for part, prefix in PARTS.items():
        if name.startswith(prefix):
            return part
    return REST


def parts_of(functions: Counter[str]) -> dict[str, int]:
    """Return the instructions of each part, and the total."""
    parts = dict.fromkeys([*PARTS, REST], 0)
    for name, count in functions.items():
        parts[part_of(name)] += count
    return {**parts, TOTAL: functions.total()}

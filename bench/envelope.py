#!/usr/bin/env -S python3 -B
"""Time reading and writing envelopes, in MB of their text per second: envelope.py [--quick]

The best time of each counts.
"""

import os
import subprocess
import tempfile
import time
from collections.abc import Callable
from typing import IO

from measured import BENCHMARK, options

CIPHER_LENGTH = 1 << 20
HEADER = b"$ANSIBLE_VAULT;1.1;AES256\n"
REPEATS = 20
RUNS = 7
READING_TARGET, WRITING_TARGET = 150, 250


def check_length() -> None:
    """Check that the program writes the length that the format requires."""
    run = subprocess.run([BENCHMARK, "write", str(CIPHER_LENGTH), "1"], stdout=subprocess.PIPE, check=True)
    if int(run.stdout) != len(envelope(80, CIPHER_LENGTH)):
        raise SystemExit("the program writes an envelope of another length")


def envelope(width: int, length: int) -> bytes:
    """Return an envelope of this much ciphertext, with lines of this many digits."""
    salt = bytes([7] * 32)
    tag = bytes([9] * 32)
    inner = b"\n".join(part.hex().encode() for part in (salt, tag, os.urandom(length)))
    digits = inner.hex().encode()
    return HEADER + b"".join(digits[i : i + width] + b"\n" for i in range(0, len(digits), width))


def read(file: IO[bytes], length: int) -> None:
    file.seek(0)
    os.lseek(file.fileno(), 0, os.SEEK_SET)
    command = [BENCHMARK, "read", str(REPEATS)]
    run = subprocess.run(command, stdin=file, stdout=subprocess.PIPE, check=True)
    if int(run.stdout) != length:
        raise SystemExit("the program reads an envelope of another length")


def write() -> None:
    subprocess.run([BENCHMARK, "write", str(CIPHER_LENGTH), str(REPEATS)], stdout=subprocess.DEVNULL, check=True)


def rate(work: Callable[[], None], size: int) -> float:
    """Return how many MB of text are processed per second."""
    start = time.perf_counter()
    work()
    return size * REPEATS / 1e6 / (time.perf_counter() - start)


def main() -> None:
    runs = 1 if options(__doc__).parse_args().quick else RUNS
    check_length()
    print(f"{'text of an envelope':36} {'MB/s':>6}")
    rows = [("read, lines of 80 digits", 80, CIPHER_LENGTH), ("read, 6 MiB in lines of 2 digits", 2, CIPHER_LENGTH)]
    for name, width, length in rows:
        text = envelope(width, length)
        with tempfile.TemporaryFile() as file:
            file.write(text)
            file.flush()
            ours = max(rate(lambda: read(file, length), len(text)) for _ in range(runs))
        print(f"{name:36} {ours:6.0f}")
    written = max(rate(write, len(envelope(80, CIPHER_LENGTH))) for _ in range(runs))
    print(f"{'write, lines of 80 digits':36} {written:6.0f}")
    print(f"targets: {READING_TARGET} MB/s of reading, {WRITING_TARGET} MB/s of writing")


if __name__ == "__main__":
    main()

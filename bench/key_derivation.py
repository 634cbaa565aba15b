#!/usr/bin/env -S python3 -B
"""Time the derivation of a vault's keys, ten thousand rounds of PBKDF2 to 80 bytes: key_derivation.py [--quick]

It is compared with 60,000 compressions by the kit's `sha2`, the number that these rounds take, one by one, and with
OpenSSL's PBKDF2, called through `hashlib`. All take turns in one run, and the least processor time of each counts.
"""

import hashlib
import resource
import ssl
import subprocess
from collections.abc import Callable

from measured import BENCHMARK, options

PASSWORD = b"password"
SALT = bytes(32)
REPEATS = 5
RUNS = 40
TARGET = 1.06


def check_keys() -> None:
    """Check that the program and OpenSSL derive the same keys."""
    run = subprocess.run([BENCHMARK, "derive", "1"], stdout=subprocess.PIPE, text=True, check=True)
    if run.stdout.strip() != str(list(openssl()[:32])):
        raise SystemExit("the program and OpenSSL derive different keys")


def openssl() -> bytes:
    return hashlib.pbkdf2_hmac("sha256", PASSWORD, SALT, 10_000, 80)


def program(work: str) -> None:
    subprocess.run([BENCHMARK, work, str(REPEATS)], stdout=subprocess.DEVNULL, check=True)


def repeated_openssl() -> None:
    for _ in range(REPEATS):
        openssl()


def processor_seconds() -> float:
    """Return the processor time of this program and of the programs that it ran, so far."""
    used = [resource.getrusage(resource.RUSAGE_SELF), resource.getrusage(resource.RUSAGE_CHILDREN)]
    return sum(part.ru_utime + part.ru_stime for part in used)


def milliseconds(work: Callable[[], None]) -> float:
    """Return the processor time of one repetition, in milliseconds."""
    start = processor_seconds()
    work()
    return (processor_seconds() - start) * 1000 / REPEATS


def main() -> None:
    runs = 1 if options(__doc__).parse_args().quick else RUNS
    check_keys()
    tasks: dict[str, Callable[[], None]] = {
        "derivation": lambda: program("derive"),
        "compressions": lambda: program("compressions"),
        "openssl": repeated_openssl,
    }
    best = dict.fromkeys(tasks, float("inf"))
    for _ in range(runs):
        for name, work in tasks.items():
            best[name] = min(best[name], milliseconds(work))
    derivation = best["derivation"]
    to_compressions = derivation / best["compressions"]
    to_openssl = derivation / best["openssl"]
    print(f"key derivation, 10,000 rounds into 80 bytes: {derivation:.2f} ms")
    print(
        f"60,000 compressions by sha2: {best['compressions']:.2f} ms;"
        f" the derivation takes {to_compressions:.2f} times as long (target: at most {TARGET})"
    )
    print(
        f"PBKDF2 of {ssl.OPENSSL_VERSION}: {best['openssl']:.2f} ms;"
        f" the derivation takes {to_openssl:.2f} times as long"
    )


if __name__ == "__main__":
    main()

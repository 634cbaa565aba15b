"""Run programs, to their end or beside the test, but no longer than it."""

import contextlib
import subprocess
from collections.abc import Iterator, Sequence
from typing import IO, Any

# Seconds after which a run is considered to hang. No result depends on them, so slow machines run the tests, too.
SECONDS = 300
# The locale of the programs that the tests run, whatever the caller's locale.
PLAIN = {"LC_ALL": "C.UTF-8", "LANGUAGE": ""}


def run(
    words: Sequence[str], stdin: bytes | int | IO[bytes] = subprocess.DEVNULL, **options: Any
) -> subprocess.CompletedProcess[Any]:
    """Run a program to its end, with a time limit. Its outputs are captured unless `options` send them elsewhere."""
    given: dict[str, Any] = {"stdout": subprocess.PIPE, "stderr": subprocess.PIPE, "timeout": SECONDS}
    given["input" if isinstance(stdin, bytes) else "stdin"] = stdin
    return subprocess.run(words, **given | options)


def run_text(words: Sequence[str], **options: Any) -> subprocess.CompletedProcess[str]:
    """Run a program whose outputs are text."""
    return run(words, text=True, **options)


@contextlib.contextmanager
def started(words: Sequence[str], **options: Any) -> Iterator[subprocess.Popen[Any]]:
    """Start a process, and kill it at the end if it is still running."""
    process = subprocess.Popen(words, **options)
    try:
        yield process
    finally:
        process.kill()
        process.wait(SECONDS)
        for stream in filter(None, (process.stdin, process.stdout, process.stderr)):
            with contextlib.suppress(BrokenPipeError):
                stream.close()

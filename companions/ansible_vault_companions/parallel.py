"""Works on several envelopes at once, each in a run of ansible-vault."""

from __future__ import annotations

import os
from collections.abc import Callable, Iterable, Iterator
from contextlib import contextmanager
from typing import TYPE_CHECKING, TypeVar

from ansible_vault_companions import output, signals

# This takes long to import, while most files have a single envelope.
if TYPE_CHECKING:
    from concurrent.futures import ThreadPoolExecutor

Item = TypeVar("Item")
Result = TypeVar("Result")


@contextmanager
def open_pool() -> Iterator[ThreadPoolExecutor]:
    """A context with a thread for each processor. If it ends early, what has not begun is dropped, and nobody waits for
    the rest if a signal has ended the companion."""
    from concurrent.futures import ThreadPoolExecutor

    # The main thread takes all signals.
    pool = ThreadPoolExecutor(len(os.sched_getaffinity(0)), initializer=signals.Postponement().__enter__)
    try:
        yield pool
    finally:
        pool.shutdown(wait=not signals.received, cancel_futures=True)


def work_at_once(work: Callable[[Item], Result], values: Iterable[Item], shows_progress: bool = True) -> list[Result]:
    """The results of some work on each value."""
    items = [*values]
    if len(items) < 2:
        return [work(item) for item in items]
    results: list[Result] = []
    progress = output.Progress(lambda: f"value {len(results):,} of {len(items):,}")
    with progress, open_pool() as pool:
        for result in pool.map(work, items):
            results.append(result)
            if shows_progress:
                progress.show()
    return results

"""The memory of a companion has one limit, so that a file that takes endless memory does not take the machine's.

It is set once, and programs that a companion starts have it, too, except those that the user has chosen: an editor or a
password script. What exceeds it ends the companion with a message, and files stay as they are.
"""

from __future__ import annotations

import os
import resource

# In bytes. A machine with less than twice as much memory has half of that.
MOST = 4 << 30
_before = resource.getrlimit(resource.RLIMIT_DATA)


def limit_memory() -> None:
    half = os.sysconf("SC_PAGE_SIZE") * os.sysconf("SC_PHYS_PAGES") // 2
    soft, hard = _before
    limits = [limit for limit in (MOST, half, soft, hard) if limit != resource.RLIM_INFINITY]
    resource.setrlimit(resource.RLIMIT_DATA, (min(limits), hard))


def lift_limit() -> None:
    """For a program that the user has chosen."""
    resource.setrlimit(resource.RLIMIT_DATA, _before)

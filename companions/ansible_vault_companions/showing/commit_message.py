"""`git commit -v` writes the diff into the file of the commit message, where it stays. So nothing is decrypted then."""

from __future__ import annotations

import os

MESSAGE = "COMMIT_EDITMSG"
WOULD_STAY = f"its plaintext would stay in git's file {MESSAGE}; `git diff --cached` shows it"


def is_open() -> bool:
    """Whether git has its commit message open, and so may write into it what is shown."""
    return any(os.path.basename(os.path.realpath(file)) == MESSAGE for file in os.scandir("/proc/self/fd"))

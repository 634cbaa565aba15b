"""Shell scripts that take the place of programs."""

import os
from pathlib import Path


def write_script(path: Path, text: str) -> str:
    """Write a shell script, and return its path."""
    path.parent.mkdir(parents=True, exist_ok=True)
    path.write_text(f"#!/bin/sh\n{text}\n")
    path.chmod(0o755)
    return str(path)


def searched_first(folder: Path) -> dict[str, str]:
    """Return the environment, with this directory first on PATH."""
    return os.environ | {"PATH": f"{folder}{os.pathsep}{os.environ['PATH']}"}

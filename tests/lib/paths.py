"""Paths in the repository."""

import re
from pathlib import Path

ROOT = Path(__file__).resolve().parent.parent.parent
PAGE = ROOT / "man" / "ansible-vault.1"
# The manual pages: one for each program, and in section 7 one for what the companions share.
MANUALS = sorted(PAGE.parent.glob("*.[17]"))
README = ROOT / "README.md"
COMPANIONS = {path.name: path for path in sorted((ROOT / "companions").glob("ansible-vault-*"))}


def sections(page: Path) -> dict[str, str]:
    """Return the sections of a manual page, by title."""
    # Titles and sections take turns.
    _, *parts = re.split(r"^\.Sh (.+)$", page.read_text(), flags=re.MULTILINE)
    return dict(zip(parts[::2], parts[1::2]))


def version() -> str:
    """Return the program's version, from the one place that defines it."""
    text = (ROOT / "crates" / "vault_request" / "src" / "command_line.rt").read_text()
    [found] = re.findall(r'^const VERSION: &str = "(.*)";$', text, re.MULTILINE)
    return str(found)

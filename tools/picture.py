#!/usr/bin/env -S python3 -B -X utf8
"""Draw docs/git-diff.svg from what git and the built programs print: tools/picture.py PROGRAM.

Salts are fixed, and nothing that it shows depends on a date, so the same programs draw the same picture.
"""

import os
import re
import subprocess
import sys
import tempfile
from pathlib import Path
from typing import NamedTuple
from xml.sax.saxutils import escape

ROOT = Path(__file__).resolve().parent.parent
PICTURE = ROOT / "docs" / "git-diff.svg"
VAULT = "db_host: db1.example.org\ndb_user: shop\ndb_password: {}\nlog_level: info\n"
INSTALL = "ansible-vault-hook --install --vault-id prod@~/.vault/prod.pass"
GITCONFIG = "[user]\nname = Eve\nemail = eve@example.org\n[core]\nabbrev = 7\n[color]\nui = always\n"
ENVIRONMENT = {"GIT_CONFIG_NOSYSTEM": "1", "LC_ALL": "C.UTF-8"}

# The titles of the windows.
TITLES = ["git diff of a vault", "A merge conflict in a vault"]
# The characters in a line, so few that a telephone shows them.
COLUMNS = 47
# In pixels.
LINE = 16
# The width of a character of DejaVu Sans Mono of this size.
ADVANCE = 7.225
SIZE = 12
# What surrounds the text, what is above it, and what is between windows.
MARGIN = 14
TITLE = 32
GAP = 12
WIDTH = round(COLUMNS * ADVANCE) + 2 * MARGIN
# The classes of git's colors, by their codes in a terminal.
CLASSES = {"1": "head", "31": "old", "32": "new", "36": "place"}
STYLE = f"""\
    .window {{ fill: #0d1117; stroke: #6e7681 }}
    .rule {{ stroke: #30363d }}
    .title {{ fill: #f0f6fc; font: bold 13px Helvetica, Arial, sans-serif }}
    .text {{ font: {SIZE}px "DejaVu Sans Mono", Menlo, Consolas, monospace; white-space: pre }}
    .plain {{ fill: #c9d1d9 }}
    .typed {{ fill: #f0f6fc; font-weight: bold }}
    .head {{ fill: #9da7b3; font-weight: bold }}
    .mark {{ fill: #8b949e }}
    .place {{ fill: #56d4dd }}
    .old {{ fill: #ffa198 }} .behind-old {{ fill: #4c1519 }}
    .new {{ fill: #7ee787 }} .behind-new {{ fill: #10361d }}
"""


class Line(NamedTuple):
    kind: str
    text: str


class Session:
    """A shell in a new repository, with the program and the companions on PATH."""

    def __init__(self, home: Path, program: str):
        self.repository = home / "repository"
        for folder in (self.repository, home / "bin", home / ".vault"):
            folder.mkdir(parents=True)
        for path in (Path(program).resolve(), *ROOT.glob("companions/ansible-vault-*")):
            (home / "bin" / path.name).symlink_to(path)
        (home / ".gitconfig").write_text(GITCONFIG)
        (home / ".vault" / "prod.pass").write_text("any password")
        self.environment = ENVIRONMENT | {"HOME": str(home), "PATH": f"{home}/bin:{os.defpath}"}

    def run(self, command: str, text: str = "", status: int = 0) -> list[Line]:
        """Run a command, and return it with what it prints."""
        words = ["env", "-C", str(self.repository), "sh", "-c", f"exec 2>&1; {command}"]
        done = subprocess.run(words, env=self.environment, input=text, text=True, stdout=subprocess.PIPE)
        if done.returncode != status:
            sys.exit(f"{command}: status {done.returncode}\n{done.stdout}")
        return [Line("typed", f"$ {command}"), *map(read_line, done.stdout.splitlines())]

    def write_vault(self, password: str) -> None:
        """Write the vault, with a salt that no other plaintext has."""
        words = f'--vault-id prod@"$HOME"/.vault/prod.pass --salt "salt of {password}" --output vault.yml'
        self.run(f"ansible-vault encrypt {words}", VAULT.format(password))

    def show_differences(self) -> list[list[Line]]:
        """Return what git shows of a change, and of a conflict with a branch."""
        self.run("git init -q -b main")
        self.write_vault("correct horse")
        (self.repository / ".gitattributes").write_text("vault.yml diff=ansible-vault merge=ansible-vault\n")
        self.run(INSTALL)
        self.run("git add . && git commit -qm one && git checkout -qb team")
        self.write_vault("rubber duck")
        self.run("git commit -qam two && git checkout -q main")
        self.write_vault("battery staple")
        change = self.run("git diff")
        self.run("git commit -qam three")
        command, *printed = self.run("git merge team", status=1)
        printed.sort(key=lambda line: "CONFLICT" not in line.text)
        return [change, [*shorten([command, *printed], 3), *self.run("git diff")]]


def read_line(printed: str) -> Line:
    """Return a line as git colors its first word."""
    code = re.match(r"\x1b\[(\d+)m", printed)
    return Line(CLASSES[code[1]] if code else "plain", re.sub(r"\x1b\[\d*m", "", printed))


def shorten(lines: list[Line], count: int) -> list[Line]:
    """Return at most so many lines. Before the last quarter, one of them says how many are left out."""
    if len(lines) <= count:
        return lines
    last = count // 4
    mark = Line("mark", f"⋯ {len(lines) - count + 1} more lines")
    return [*lines[: count - last - 1], mark, *lines[len(lines) - last :]]


def draw_window(title: str, lines: list[Line], y: int, height: int) -> str:
    """Return a window. Lines that are too long end with a mark."""
    body = f'<rect class="window" x="0.5" y="{y + 0.5}" width="{WIDTH - 1}" height="{height - 1}" rx="8"/>\n'
    body += f'<path class="rule" d="M1 {y + TITLE - 4}.5 h{WIDTH - 2}"/>\n'
    body += f'<text class="title" x="{MARGIN}" y="{y + 19}">{title}</text>\n'
    for base, (kind, text) in zip(range(y + TITLE + LINE, y + height, LINE), lines):
        if kind in ("old", "new"):
            body += f'<rect class="behind-{kind}" x="1" y="{base - 12}" width="{WIDTH - 2}" height="{LINE}"/>\n'
        if len(text) > COLUMNS:
            text = f"{text[: COLUMNS - 1]}…"
        body += f'<text class="text {kind}" x="{MARGIN}" y="{base}">{escape(text)}</text>\n'
    return body


def draw_picture(program: str) -> str:
    with tempfile.TemporaryDirectory() as top:
        windows = Session(Path(top), program).show_differences()
    body, y = "", 0
    for title, lines in zip(TITLES, windows):
        height = TITLE + len(lines) * LINE + MARGIN
        body += draw_window(title, lines, y, height)
        y += height + GAP
    text = escape("\n".join(line.text for lines in windows for line in lines))
    height = y - GAP
    size = f'width="{WIDTH}" height="{height}" viewBox="0 0 {WIDTH} {height}"'
    return f"""\
<svg xmlns="http://www.w3.org/2000/svg" {size} role="img" xml:space="preserve">
<title>git diff and git merge of a vault</title>
<desc>{text}</desc>
<style>
{STYLE}</style>
{body}</svg>
"""


if __name__ == "__main__":
    PICTURE.write_text(draw_picture(sys.argv[1]))

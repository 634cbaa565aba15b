"""Tests of the companions, by companion and promise, and the code that they share.

`model.vaults` or Ansible's tool makes the vaults, and `model.vaults` decrypts what the companions write, so no result
depends on the program itself.
"""

import hmac
import os
import re
import shutil
import stat
import subprocess
import time
from collections.abc import Callable, Iterable
from pathlib import Path
from typing import NamedTuple

from lib.cases import Answer, answer_of
from lib.paths import ROOT
from lib.processes import SECONDS, run, run_text
from model.vaults import apply_keystream, seal, tag_of, yaml_block

COMPANIONS = ROOT / "companions"
# git's work in the background would outlive a test, and change the directory that the test removes.
GIT_CONFIGURATION = "[maintenance]\n\tauto = false\n[gc]\n\tauto = 0\n"
EDIT, ROTATE, CHECK, TEXTCONV, HOOK, WITH, MERGE = (
    f"ansible-vault-{name}" for name in ("edit", "rotate", "check", "textconv", "hook", "with", "merge")
)
# The status of a merge that leaves a conflict.
CONFLICT = 128
# A finished run of a companion.
Done = subprocess.CompletedProcess[str]
NOBODY = 65_534
TEXT = b"db_password: correct horse\n"
# Passwords by the names of their files.
PASSWORDS = {name: f"the password {name}".encode() for name in ("old", "new", "dev", "dev2", "prod", "prod2")}
# The edited text and the editor's command.
CHANGED = TEXT.replace(b"correct", b"wrong")
CHANGE = 'sed -i s/correct/wrong/ "$1"'
# Matches a whole envelope.
FOUND = re.compile(rb"(?m)^ *\$ANSIBLE_VAULT;1.*(?:\n *[0-9a-fA-F]+\r?$)+")
# The first line of a copy of what was saved.
HEAD = re.compile(rb"\A# ansible-vault-edit [0-9a-f]{64}: what was saved begins below\.\n")
# The first line of an envelope, with its password and plaintext if they are known; or other content unchanged.
Described = tuple[bytes, tuple[str, bytes] | None]
# Names that need care in a shell, as an argument or in a line of text.
AWKWARD = [
    "with a space.yml",
    "it's.yml",
    'say "so".yml',
    "a\nline.yml",
    "-rf.yml",
    "--help",
    "$(touch x);`y`.yml",
    "back\\slash.yml",
    "größe.yml",
    "*.yml",
]


def sealed(password: str, text: bytes = TEXT, label: str = "") -> bytes:
    return seal(PASSWORDS[password], text, label.encode())


def decrypted(password: str, envelope: bytes) -> bytes | None:
    """Return the plaintext, or None if the password is wrong, or the envelope is empty."""
    if not envelope:
        return None
    inner = bytes.fromhex(b"".join(envelope.split(b"\n")[1:]).decode())
    salt, tag, ciphertext = (bytes.fromhex(part.decode()) for part in inner.split(b"\n", 2))
    if not hmac.compare_digest(tag_of(PASSWORDS[password], salt, ciphertext), tag):
        return None
    padded = apply_keystream(PASSWORDS[password], salt, ciphertext)
    return padded[: -padded[-1]]


def block(password: str, text: bytes = TEXT, label: str = "", name: str = "secret") -> bytes:
    """Return a block as Ansible's tool writes it."""
    return yaml_block(sealed(password, text, label), name.encode())


class Place:
    """A tree of files, with the companions and the program on PATH, password files, and a runtime directory."""

    def __init__(self, path: Path, program: Path, companions: Path) -> None:
        self.path = path
        folders = [path / name for name in ("tools", "tree", "secrets", "runtime", "temporary")]
        self.tools, self.tree, self.secrets, self.runtime, self.temporary = folders
        for folder in folders:
            folder.mkdir()
        self.temporary.chmod(0o1777)
        self.program, self.companions = program, companions
        for each in (program, *companions.glob("ansible-vault-*")):
            (self.tools / each.name).symlink_to(each)
        # Where a fault makes a companion run its usual editor, that does not wait for somebody.
        self.script("exit 1", "tools/vi")
        for name, password in PASSWORDS.items():
            (self.secrets / name).write_bytes(password + b"\n")
        kept = {name: value for name, value in os.environ.items() if name in ("PATH", "LANG", "LC_ALL")}
        (path / "gitconfig").write_text(GIT_CONFIGURATION)
        self.environment = kept | {
            "HOME": str(path),
            "PATH": f"{self.tools}{os.pathsep}{kept['PATH']}",
            "XDG_RUNTIME_DIR": str(self.runtime),
            "TMPDIR": str(self.temporary),
            "GIT_CONFIG_GLOBAL": "/dev/null",
            "GIT_CONFIG_SYSTEM": str(path / "gitconfig"),
        }

    def secret(self, name: str) -> str:
        return str(self.secrets / name)

    def by_file(self, name: str, prefix: str = "") -> list[str]:
        return [f"--{prefix}vault-password-file", self.secret(name)]

    def by_id(self, label: str, name: str, prefix: str = "") -> list[str]:
        return [f"--{prefix}vault-id", f"{label}@{self.secret(name)}"]

    def put(self, name: str, content: bytes, mode: int = 0o644) -> None:
        path = self.tree / name
        path.parent.mkdir(parents=True, exist_ok=True)
        path.write_bytes(content)
        path.chmod(mode)

    def get(self, name: str) -> bytes:
        return (self.tree / name).read_bytes()

    def mode(self, name: str) -> str:
        return oct(stat.S_IMODE((self.tree / name).stat().st_mode))

    def files(self) -> dict[str, bytes]:
        """Return the content of each file in the tree, except git's own."""
        names = [name for name in self.names() if not name.startswith(".git/")]
        return {name: self.get(name) for name in names if (self.tree / name).is_file()}

    def names(self) -> list[str]:
        return sorted(str(each.relative_to(self.tree)) for each in self.tree.rglob("*"))

    def left(self) -> list[str]:
        """Return what is left in the runtime directory."""
        return sorted(str(each) for each in self.runtime.rglob("*"))

    def copies(self) -> list[Path]:
        """Return the rescue copies of edits."""
        return sorted((self.path / ".local/state/ansible-vault").glob("*"))

    def kept(self, password: str = "old") -> list[bytes]:
        """Return the texts in the copies, below the line that says what they are."""
        texts = [decrypted(password, path.read_bytes()) or b"" for path in self.copies()]
        assert all(HEAD.match(text) for text in texts), texts
        return [HEAD.sub(b"", text) for text in texts]

    def script(self, text: str, name: str = "script", interpreter: str = "/bin/sh") -> str:
        """Write a program that runs this text, and return its path."""
        path = self.path / name
        path.write_text(f"#!{interpreter}\n{text}\n")
        path.chmod(0o755)
        return str(path)

    def wrap_tool(self, text: str, name: str = "ansible-vault") -> None:
        """Wrap the program, or git, in a script that first runs this shell text."""
        (self.tools / name).unlink(missing_ok=True)
        program = str(self.program) if name == "ansible-vault" else shutil.which(name)
        self.script(f'{text}\nexec {program} "$@"', f"tools/{name}")

    def run(self, *words: str, folder: str = ".", **variables: str) -> Done:
        where = {"cwd": self.tree / folder, "env": self.environment | variables}
        return run_text(words, errors="surrogateescape", **where)

    def shell(self, text: str, interpreter: str = "sh", folder: str = ".", **variables: str) -> Done:
        return self.run(interpreter, "-c", text, folder=folder, **variables)

    def run_on(self, data: bytes, *words: str, **variables: str) -> subprocess.CompletedProcess[bytes]:
        """Run with this standard input. The outputs are bytes."""
        return run(words, data, cwd=self.tree, env=self.environment | variables)

    def traced(self, options: str, companion: str, *words: str, **variables: str) -> tuple[Done, list[str]]:
        """Run a companion under strace with these options, and return the lines of the trace, too."""
        trace = self.path / "trace"
        tracer = ["strace", "-f", "-o", str(trace), *options.split()]
        done = self.run(*tracer, str(self.tools / companion), *words, **variables)
        return done, trace.read_text(errors="replace").splitlines()

    def as_nobody(self, *words: str) -> Done:
        """Run as a user who owns nothing if root runs the tests, since root may read and write everything."""
        if os.geteuid() == 0:
            words = ("setpriv", f"--reuid={NOBODY}", f"--regid={NOBODY}", "--clear-groups", *words)
        return self.run(*words)


def run_changed(place: Place, companion: str, change: str, words: list[str], **variables: str) -> Done:
    """Run a companion after this Python text, which may change the modules `reading` and `replacing`."""
    text = f"""
import os, runpy, signal, sys
sys.argv = sys.argv[1:]
sys.path[0] = os.path.dirname(os.path.realpath(sys.argv[0]))
from ansible_vault_companions.files import reading, replacing
{change}
runpy.run_path(sys.argv[0], run_name="__main__")
"""
    script = place.script(text, "changed", "/usr/bin/env -S python3 -IBXutf8")
    return place.run(script, str(place.tools / companion), *words, **variables)


class Companions(NamedTuple):
    """Makes places with these copies of the companions and the program, each in a directory of its own."""

    copies: Path
    folder: Path

    def place(self) -> Place:
        path = self.folder / f"place{len(os.listdir(self.folder))}"
        path.mkdir()
        return Place(path, self.copies / "ansible-vault", self.copies / "companions")


def ended(what: str, done: Done, status: int, *parts: str) -> None:
    """Check the status, and that each part is printed, on either stream."""
    output = done.stdout + done.stderr
    missing = [part for part in parts if part not in output]
    assert missing == [], f"{what}: it does not print this, but {output}"
    assert done.returncode == status, f"{what}: its status; it prints {output}"


def check_answer(what: str, done: Done, status: int = 0, output: str | None = "", errors: str = "") -> None:
    """Check the status, and both streams as a whole. If `output` is None, the output is not checked."""
    assert answer_of(done) == Answer(status, done.stdout if output is None else output, errors), what


def silent(what: str, done: Done) -> None:
    """Check that the run succeeds and prints nothing."""
    assert answer_of(done) == Answer(0, "", ""), what


def edit(place: Place, editor: str, *words: str, **variables: str) -> Done:
    """Run an edit whose editor is a script with this text."""
    return place.run(EDIT, *words, EDITOR=place.script(editor, "editor"), **variables)


def lines_of(envelope: bytes, spaces: int, end: bytes = b"\n") -> bytes:
    """Return an indented envelope, without a final newline."""
    return end.join(b" " * spaces + line for line in envelope.splitlines())


def texts(data: bytes, password: str) -> list[bytes | None]:
    """Return the plaintext of each block, or None if the password is wrong."""
    found = [re.sub(rb"[ \r]", b"", each) for each in FOUND.findall(data)]
    return [decrypted(password, each + b"\n") for each in found]


def summary(changed: int, had_it: int = 0, others: int = 0, named: str = "", failed: int = 0) -> str:
    """Return the last line of a rotation."""
    done = f"{changed} rotated, {had_it} already under the new password"
    return f"{done}, {others} with other labels{named}, {failed} failed"


def to_new(place: Place) -> list[str]:
    return [*place.by_file("old"), *place.by_file("new", "new-")]


def wait_until(condition: Callable[[], object], what: str) -> None:
    end = time.monotonic() + SECONDS
    while not condition():
        if time.monotonic() > end:
            raise AssertionError(f"{what} takes too long")
        time.sleep(0.02)


def how_to_resolve(pathspec: str) -> str:
    """Return how a message on a conflict ends."""
    return (
        f"resolve with ansible-vault-edit, or take one side with `git checkout --ours -- {pathspec}` or with `--theirs`"
    )


def versions(place: Place, name: str, base: bytes, ours: bytes, other: bytes) -> list[str]:
    """Return the arguments for a merge of three versions, of which only ours is in the tree."""
    place.put(f"../versions/base-{name}", base)
    place.put(f"../versions/theirs-{name}", other)
    place.put(name, ours)
    return [f"../versions/base-{name}", name, f"../versions/theirs-{name}", name]


def envelope_of(content: bytes) -> bytes | None:
    """Return the envelope of a vault or of a single block, or None for other content."""
    envelope = b"".join(line.strip() + b"\n" for line in content.splitlines() if b"!vault" not in line)
    return envelope if envelope.startswith(b"$ANSIBLE_VAULT") else None


def described(content: bytes, passwords: Iterable[str] = PASSWORDS) -> Described:
    """Describe the content, with the first of the passwords that decrypts it."""
    envelope = envelope_of(content)
    if envelope is None:
        return content, None
    texts = ((name, decrypted(name, envelope)) for name in passwords)
    return envelope.partition(b"\n")[0], next(((name, text) for name, text in texts if text is not None), None)


def first_line(label: str = "default") -> str:
    """Return what ansible-vault-textconv shows before the plaintext of a vault."""
    return f"# ansible-vault: encrypted, label {label}\n"


def line_of_values(count: int) -> str:
    """Return what it shows before a file with this many values."""
    return f"# ansible-vault: encrypted values: {count}\n"


# What it shows before a file without an envelope, and before one that it shows as it is for another reason.
NOT_ENCRYPTED = "# ansible-vault: not encrypted\n"
NOT_DECRYPTED = "# ansible-vault: not decrypted\n"
BODY = lines_of(sealed("old"), 10)

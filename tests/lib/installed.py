"""The files of an installation, and checks that they work where they are installed."""

import os
import pathlib
import re
import subprocess
import tempfile
from typing import Any

from lib.paths import COMPANIONS, ROOT, version
from lib.processes import run, run_text
from model.vaults import seal

VERSION = version()

SHARED = {str(each.relative_to(ROOT / "companions")) for each in (ROOT / "companions").rglob("*.py")}
NAMES = {"ansible-vault", *COMPANIONS}
DOCUMENTS = {"README.md", "CHANGELOG.md", "CONTRIBUTING.md", "LICENSE", "debian/copyright", "tests/README.md"}
DOCUMENTS |= {f"docs/{each.name}" for each in (ROOT / "docs").iterdir()}
DOCUMENTS |= {str(each.relative_to(ROOT)) for each in (ROOT / "testkit").rglob("*") if each.is_file()}
# The paths, below the prefix, where Debian's tools look for these files.
FILES = {
    *(f"bin/{name}" for name in NAMES),
    *(f"share/bash-completion/completions/{name}" for name in NAMES),
    *(f"share/fish/vendor_completions.d/{name}.fish" for name in NAMES),
    *(f"lib/ansible-vault/{name}" for name in COMPANIONS),
    *(f"lib/ansible-vault/{name}" for name in SHARED),
    *(f"share/doc/ansible-vault/{name}" for name in DOCUMENTS),
}
# The paths of the manual pages below the prefix.
PAGES = {*(f"share/man/man1/{name}.1" for name in NAMES), "share/man/man7/ansible-vault-companions.7"}
# What `make install` installs below a prefix, except for the checksums.
PREFIX_FILES = FILES | PAGES | {"share/zsh/site-functions/_ansible-vault"}


def run_make(
    program: str, *words: str, at: pathlib.Path = ROOT, env: dict[str, str] | None = None, **options: Any
) -> subprocess.CompletedProcess[str]:
    """Run make as a shell would, even if make runs this test. It installs this program."""
    environment = dict(os.environ if env is None else env)
    environment.pop("MAKEFLAGS", None)
    named = [] if program == str(ROOT / "bin" / "ansible-vault") else [f"PROGRAM={program}"]
    command = ["make", "-s", "-C", str(at), *named, *words]
    return subprocess.run(command, capture_output=True, text=True, env=environment, **options)


def printed(*words: str, cwd: pathlib.Path | None = None, **variables: str) -> str:
    return run_text(words, env=os.environ | variables, cwd=cwd).stdout


def files_below(folder: pathlib.Path) -> set[str]:
    return {str(each.relative_to(folder)) for each in folder.rglob("*") if not each.is_dir()}


def compiled_modules(files: set[str]) -> set[str]:
    """Return the modules whose compiled form is among these files."""
    compiled = [each for each in files if each.endswith(".pyc")]
    return {re.sub(r"__pycache__/(\w+)\..*", r"\1.py", each) for each in compiled}


def check_starts(library: str, *start: str) -> None:
    """Check that companions in this directory, started like this, read no module that has to be compiled first."""
    for name in COMPANIONS:
        done = run_text([*start, "/usr/bin/python3", "-IBv", f"{library}/{name}", "--help"])
        read = re.findall(rf"^# code object from '?{re.escape(library)}/([^'\n]+)", done.stderr, re.MULTILINE)
        sources = [path for path in read if not path.endswith(".pyc")]
        assert done.returncode == 0, f"{name} prints its help: {done.stderr}"
        assert read != [], f"{name} reads modules"
        assert sources == [], f"the modules that {name} has to compile"


def check_program(program: pathlib.Path, where: str) -> None:
    """Check that the program works, that each companion prints its help, and that one calls the program beside it."""
    output = printed(str(program), "--version").strip()
    assert output == f"ansible-vault {VERSION}", f"{where} prints its version"
    helps = {name: printed(str(program.with_name(name)), "--help", PATH=os.defpath) for name in COMPANIONS}
    silent = [name for name, text in helps.items() if not text.startswith(f"usage: {name}")]
    assert silent == [], f"the companions beside {where} that have no help"
    with tempfile.TemporaryDirectory() as folder:
        password, vault = pathlib.Path(folder, "password"), pathlib.Path(folder, "vault")
        password.write_bytes(b"one\n")
        vault.write_bytes(seal(b"one", b"text"))
        shown = run([str(program), "view", "--vault-password-file", str(password), str(vault)])
        assert (shown.stdout, shown.stderr) == (b"text", b""), f"{where} shows a vault"
        check = str(program.with_name("ansible-vault-check"))
        output = printed(check, "--vault-password-file", str(password), str(vault), PATH=os.defpath)
        wanted = f"{vault}: default: decrypted by {password}\n1 decrypted, 0 failed\n"
        assert output == wanted, f"the companions beside {where} call it"

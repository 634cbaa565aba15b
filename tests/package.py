"""Build the Debian package, twice with the same bytes, and install, upgrade and remove it in a root of its own, beside
a stand-in for Ansible's package."""

import os
import re
import shutil
import subprocess
from datetime import datetime
from pathlib import Path

import pytest

from ansible_vault_companions import OLDEST
from lib.installed import FILES, PAGES, SHARED, VERSION, check_program, check_starts, compiled_modules, files_below
from lib.installed import printed, run_make
from lib.needs import needs, needs_root
from lib.package_root import Root, later, stand_in
from lib.paths import ROOT
from lib.processes import run_text
from lib.scripts import searched_first, write_script

PACKAGE_FILES = FILES | {
    *(f"{page}.gz" for page in PAGES),
    "share/zsh/vendor-completions/_ansible-vault",
    "share/doc/ansible-vault/copyright",
    "share/doc/ansible-vault/changelog.gz",
    "share/lintian/overrides/ansible-vault",
}


@pytest.fixture(scope="module")
def package(program: str) -> Path:
    needs("dpkg-deb", "dh")
    done = run_make(program, "package")
    assert done.returncode == 0, done.stderr
    architecture = printed("dpkg", "--print-architecture").strip()
    return ROOT / "bin" / f"ansible-vault_{VERSION}_{architecture}.deb"


def test_contents(package: Path, tmp_path: Path) -> None:
    """The package's contents, and what it says about itself."""
    fields = dict(re.findall(r"^(\S+): (.*)$", printed("dpkg-deb", "-f", str(package)), re.MULTILINE))
    assert fields["Version"] == VERSION
    needed = {"libc6", f"python3 (>= {'.'.join(map(str, OLDEST))})", "python3-yaml"}
    assert [each for each in needed if each not in fields["Depends"]] == []
    wanted = {"Recommends": None, "Suggests": "git", "Conflicts": None, "Breaks": None, "Replaces": None}
    assert {name: fields.get(name) for name in wanted} == wanted, "no package is taken away"
    folder = tmp_path / "package"
    subprocess.run(["dpkg-deb", "-R", str(package), str(folder)], check=True)
    own = {f"DEBIAN/{name}" for name in ("control", "md5sums", "preinst", "postinst", "prerm", "postrm")}
    assert files_below(folder) == own | {f"usr/{name}" for name in PACKAGE_FILES}
    check_program(folder / "usr" / "bin" / "ansible-vault", "the packaged program")
    shebangs = {each.read_text().split("\n")[0] for each in (folder / "usr/lib/ansible-vault").glob("ansible-vault-*")}
    assert shebangs == {
        "#!/usr/bin/python3 -IBXutf8",
        "#!/usr/bin/python3 -ISBXutf8",
    }, "the companions run by Debian's Python"
    needs("lintian")
    found = subprocess.run(["lintian", "--pedantic", str(package)], capture_output=True, text=True)
    assert found.returncode == 0 and found.stdout == "", found.stdout


def test_changelog() -> None:
    """The package's changelog has the versions of the project's, with their dates."""
    listed = re.findall(r"^## (\S+), (\S+)$", (ROOT / "CHANGELOG.md").read_text(), re.MULTILINE)
    text = (ROOT / "debian/changelog").read_text()
    dates = [datetime.strptime(each, "%a, %d %b %Y").date().isoformat() for each in re.findall(r">  (.*) 00:", text)]
    assert [*zip(re.findall(r"^ansible-vault \((\S+)\) ", text, re.MULTILINE), dates)] == listed
    assert listed[0][0] == VERSION


@pytest.fixture
def copy(tmp_path: Path, program: str) -> Path:
    """Copy the repository below a path with a space. Its program is newer than its sources."""
    needs("dpkg-deb", "dh")
    copy = tmp_path / "two words"
    shutil.copytree(ROOT, copy, symlinks=True, ignore=shutil.ignore_patterns("bin", "crates", ".git"))
    (copy / "crates").symlink_to(ROOT / "crates")
    (copy / "bin").mkdir()
    (copy / "bin/processor").write_text("\n")
    shutil.copy(program, copy / "bin/ansible-vault")
    return copy


def test_made_again(copy: Path, package: Path) -> None:
    """A path with a space, and another date, umask and time zone, give the same bytes; nothing is built again."""
    write_script(copy.parent / "rt", "echo rt is run >&2; exit 1")
    (copy / "man/ansible-vault.1").touch()
    environment = searched_first(copy.parent) | {"TZ": "Asia/Tokyo"}
    done = run_make("bin/ansible-vault", "package", at=copy, umask=0o077, env=environment)
    assert done.returncode == 0, done.stderr
    assert (copy / "bin" / package.name).read_bytes() == package.read_bytes()


def test_program_of_another_machine(copy: Path) -> None:
    """A package is for all processors, so none is made from a program for a newer one."""
    (copy / "bin/processor").write_text("x86-64-v3\n")
    (copy / "bin/ansible-vault").touch()
    wanted = "bin/ansible-vault is built for x86-64-v3, and packages and archives are for all processors: make CPU=\n"
    # Without the variables of a `make` that runs this test: they may choose the processor.
    variables = {name: value for name, value in os.environ.items() if name not in ("MAKEFLAGS", "CPU")}
    for command in ("make -s package", "make -s dist", "debian/rules override_dh_auto_install"):
        done = run_text(command.split(), cwd=copy, env=variables)
        assert done.returncode != 0 and wanted in done.stderr, (command, done.stderr)
    assert [*copy.glob("bin/*.deb"), *copy.glob("debian/ansible-vault")] == [], "no package is made of it"


# The files of Ansible's package that the stand-in contains.
THEIRS = {
    "usr/bin/ansible-vault": "#!/bin/sh\necho the other\n",
    "usr/bin/ansible-playbook": "#!/bin/sh\necho played\n",
    "usr/share/man/man1/ansible-vault.1.gz": "their page\n",
    "usr/share/bash-completion/completions/ansible-vault": "their completion for bash\n",
    "usr/share/fish/vendor_completions.d/ansible-vault.fish": "their completion for fish\n",
    "usr/share/zsh/vendor-completions/_ansible-vault": "their completion for zsh\n",
}
BOTH_HAVE = [path for path in THEIRS if "ansible-vault" in path]
# Calls of postrm that Debian's policy lists (6.5): those that take the diversions away, and those that keep them.
TAKING = ["remove", "disappear other 1", "abort-install", "abort-install 1 2"]
KEEPING = ["purge", "upgrade 2", "failed-upgrade 1 2", "abort-upgrade 1 2"]


@pytest.mark.parametrize("call", TAKING + KEEPING)
def test_maintainer_script(tmp_path: Path, call: str) -> None:
    write_script(tmp_path / "dpkg-divert", 'for path; do :; done; echo "$3 $4 $path"')
    done = run_text(["sh", str(ROOT / "debian/postrm"), *call.split()], env=searched_first(tmp_path), check=True)
    assert {*done.stdout.splitlines()} == {f"--remove --rename /{path}" for path in BOTH_HAVE if call in TAKING}


def run_dpkg(root: Root, option: str, package: str | Path) -> None:
    done = root.dpkg(option, str(package))
    assert done.returncode == 0, done.stdout + done.stderr


def check_both(root: Root, mark: str = "") -> None:
    """Our program has its name, and their files stand aside."""
    programs = ["ansible-vault", "ansible-vault-original", "ansible-playbook"]
    printed = [root.run(f"/usr/bin/{name}", "--version") for name in programs]
    assert printed == [f"ansible-vault {VERSION}\n", "the other\n", "played\n"]
    found = {path: root.read(root.aside(f"/{path}")) for path in BOTH_HAVE}
    assert found == {path: THEIRS[path] + mark for path in BOTH_HAVE}


def check_theirs(root: Root, mark: str = "") -> None:
    """Everything is theirs, as if our package had never been installed."""
    found = {path: root.read(path) for path in THEIRS}
    assert found == {path: text + mark for path, text in THEIRS.items()}
    left = {f"usr/{path}" for path in files_below(root.path / "usr") if "ansible" in path}
    assert (root.diverted(), left) == ("", {*THEIRS}), "nothing stands aside, and nothing is left"


def test_beside_theirs(package: Path, tmp_path: Path, program: str) -> None:
    """The package is installed, upgraded and removed beside theirs, which is upgraded meanwhile."""
    needs_root()
    root, mark = Root(str(tmp_path / "root"), program), "# later\n"
    for name in ("libc6", "python3", "python3-yaml"):
        run_dpkg(root, "-i", stand_in(tmp_path, name, "99", {}))
    run_dpkg(root, "-i", stand_in(tmp_path, "ansible-core", "2.14", THEIRS))
    taken = {"usr/share/doc/ansible-vault/README.md": "taken\n"}
    run_dpkg(root, "-i", stand_in(tmp_path, "in-the-way", "1", taken))
    assert "trying to overwrite" in root.dpkg("-i", str(package)).stderr, "it cannot be unpacked"
    run_dpkg(root, "-P", "in-the-way")
    check_theirs(root)
    for version in (package, later(package, tmp_path, VERSION + "+later"), package):
        run_dpkg(root, "-i", version)
        check_both(root)
    marked = {path: text + mark for path, text in THEIRS.items()}
    run_dpkg(root, "-i", stand_in(tmp_path, "ansible-core", "2.15", marked))
    check_both(root, mark)
    run_dpkg(root, "-P", "ansible-vault")
    check_theirs(root, mark)
    assert root.dpkg("-s", "ansible-vault").returncode == 1, "it is unknown to dpkg"


def test_compiled(package: Path, tmp_path: Path, program: str) -> None:
    """Where the package is installed, every user starts companions that are compiled. With it, all of that goes."""
    needs_root()
    needs("py3compile", "py3clean")
    root = Root(str(tmp_path / "root"), program)
    root.add_python()
    for name in ("libc6", "python3", "python3-yaml"):
        run_dpkg(root, "-i", stand_in(tmp_path, name, "99", {}))
    run_dpkg(root, "-i", package)
    library = "/usr/lib/ansible-vault"
    assert compiled_modules(files_below(root.path / library.lstrip("/"))) == SHARED
    check_starts(library, "chroot", "--userspec=65534:65534", str(root.path))
    run_dpkg(root, "-r", "ansible-vault")
    assert [*root.path.rglob("*ansible-vault*")] == [
        *root.path.glob("var/lib/dpkg/info/ansible-vault.*")
    ], "what is left"

"""A separate root directory for dpkg, and stand-ins for other packages, such as Ansible's."""

import os
import re
import shutil
import subprocess
import tempfile
from pathlib import Path

from lib.processes import run_text

# The programs that the maintainer scripts run.
TOOLS = ["/bin/sh", "/usr/bin/dpkg-divert"]
FOLDERS = ["usr/bin", "var/lib/dpkg/updates", "var/lib/dpkg/info", "var/log", "etc", "tmp"]
CONTROL = """\
Package: {name}
Version: {version}
Architecture: all
Maintainer: A stand-in <stand-in@example.org>
Description: a stand-in
"""


def stand_in(folder: Path, name: str, version: str, files: dict[str, str]) -> Path:
    """Build a package that contains these files."""
    with tempfile.TemporaryDirectory() as path:
        Path(path).chmod(0o755)
        for file, content in {**files, "DEBIAN/control": CONTROL.format(name=name, version=version)}.items():
            target = Path(path, file)
            target.parent.mkdir(parents=True, exist_ok=True)
            target.write_text(content)
            target.chmod(0o755)
        return build_package(path, folder / f"{name}_{version}.deb")


def later(package: Path, folder: Path, version: str) -> Path:
    """Rebuild the package with another version."""
    with tempfile.TemporaryDirectory() as path:
        subprocess.run(["dpkg-deb", "-R", str(package), f"{path}/package"], check=True)
        control = Path(path, "package", "DEBIAN", "control")
        control.write_text(re.sub(r"^Version: .*$", f"Version: {version}", control.read_text(), flags=re.MULTILINE))
        return build_package(f"{path}/package", folder / f"later_{version}.deb")


def build_package(top: str, package: Path) -> Path:
    command = ["dpkg-deb", "--root-owner-group", "-Znone", "-b", top, str(package)]
    subprocess.run(command, check=True, capture_output=True)
    return package


class Root:
    """A directory that is the whole system for the packages in it."""

    def __init__(self, path: str, program: str) -> None:
        self.path = Path(path)
        for folder in FOLDERS:
            (self.path / folder).mkdir(parents=True)
        for folder in ("bin", "lib", "lib64"):
            (self.path / "usr" / folder).mkdir(exist_ok=True)
            (self.path / folder).symlink_to(f"usr/{folder}")
        for file, text in {"status": "", "available": "", "info/format": "1\n"}.items():
            (self.path / "var/lib/dpkg" / file).write_text(text)
        self._copy({*TOOLS, *libraries(*TOOLS, program)})

    def dpkg(self, *words: str) -> subprocess.CompletedProcess[str]:
        return run_text(["dpkg", f"--root={self.path}", *words], env=os.environ | {"LC_ALL": "C"})

    def add_python(self) -> None:
        """Add this machine's Python, and what compiles the modules of a package with it and removes that."""
        python = os.path.realpath("/usr/bin/python3")
        library = f"/usr/lib/{os.path.basename(python)}"
        for folder in (library, "/usr/share/python3"):
            ignored = shutil.ignore_patterns("__pycache__", "test", "config-*", "sitecustomize.py")
            shutil.copytree(folder, f"{self.path}{folder}", ignore=ignored)
        programs = [python, "/usr/bin/dpkg", "/usr/bin/dpkg-query"]
        extensions = [str(path) for path in Path(library, "lib-dynload").iterdir()]
        self._copy(libraries(*programs, *extensions))
        self._copy({*programs, "/usr/bin/python3", "/usr/bin/py3compile", "/usr/bin/py3clean"})
        # For /dev/null, to which the maintainer scripts write.
        (self.path / "dev").mkdir()

    def _copy(self, paths: set[str]) -> None:
        for path in paths:
            copy = self.path / path.lstrip("/")
            copy.parent.mkdir(parents=True, exist_ok=True)
            shutil.copy(path, copy)

    def run(self, *words: str) -> str:
        """Run a program in this root, and return everything it prints."""
        done = run_text(["chroot", str(self.path), *words])
        return done.stdout + done.stderr

    def read(self, path: str) -> str | None:
        file = self.path / path.lstrip("/")
        return file.read_text(errors="replace") if file.is_file() else None

    def aside(self, path: str) -> str:
        """Return where dpkg puts another package's file of this path."""
        return self.run("/usr/bin/dpkg-divert", "--truename", path).strip()

    def diverted(self) -> str:
        """Return dpkg's list of diverted paths."""
        return self.run("/usr/bin/dpkg-divert", "--list")


def libraries(*files: str) -> set[str]:
    """Return the libraries that these programs and libraries load."""
    found: set[str] = set()
    for file in files:
        found.update(re.findall(r"(/\S+) \(0x", run_text(["ldd", file], check=True).stdout))
    return found

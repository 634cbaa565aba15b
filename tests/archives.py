"""`make dist` makes an archive of the sources and one of the built program, the same wherever it runs."""

import os
import re
import shutil
import subprocess
import tarfile
from datetime import datetime
from pathlib import Path
from typing import Any

import pytest

from lib.installed import PREFIX_FILES, VERSION, check_program, files_below, run_make
from lib.needs import needs_checkout
from lib.paths import ROOT

SOURCE = f"ansible-vault-{VERSION}"
PROGRAM = f"ansible-vault-{VERSION}-linux-x86_64"


def made(program: str, folder: Path, **options: Any) -> dict[str, bytes]:
    """Run `make dist` in a checkout, and return what it makes."""
    done = run_make(program, "dist", f"DIST={folder}", "CPU=", **options)
    assert done.returncode == 0, done.stderr
    return {path.name: path.read_bytes() for path in folder.iterdir()}


@pytest.fixture(scope="module")
def archives(program: str, tmp_path_factory: pytest.TempPathFactory) -> Path:
    needs_checkout()
    folder = tmp_path_factory.mktemp("archives") / "dist"
    assert made(program, folder).keys() == {f"{SOURCE}.tar.gz", f"{PROGRAM}.tar.gz", "SHA256SUMS"}
    return folder


def test_contents(archives: Path, tmp_path: Path) -> None:
    """The files are sorted, nobody's and of the newest version's date, in a directory with the archive's name."""
    [date, *_] = re.findall(r"^## .*, (.*)$", (ROOT / "CHANGELOG.md").read_text(), re.MULTILINE)
    time = datetime.fromisoformat(f"{date}T00:00:00+00:00").timestamp()
    tracked = subprocess.run(["git", "ls-files", "-z"], cwd=ROOT, capture_output=True, text=True, check=True).stdout
    for name, files in {SOURCE: {*tracked.split("\0")} - {""}, PROGRAM: PREFIX_FILES}.items():
        with tarfile.open(archives / f"{name}.tar.gz") as archive:
            members = archive.getmembers()
            archive.extractall(tmp_path / name)
        paths, times = [each.name for each in members], {each.mtime for each in members}
        owners = {(each.uid, each.gid, each.uname, each.gname) for each in members}
        assert (paths, owners, times) == (sorted(paths), {(0, 0, "", "")}, {time}), name
        assert files_below(tmp_path / name) == {f"{name}/{file}" for file in files}, name
    check_program(tmp_path / PROGRAM / PROGRAM / "bin/ansible-vault", "the program of the archive")
    subprocess.run(["sha256sum", "--check", "--quiet", "SHA256SUMS"], cwd=archives, check=True)


def test_made_again(program: str, archives: Path, tmp_path: Path) -> None:
    """In a checkout, the unpacked sources give the same archives in another directory, time zone and umask."""
    with tarfile.open(archives / f"{SOURCE}.tar.gz") as archive:
        archive.extractall(tmp_path)
    checkout, own = tmp_path / SOURCE, str(shutil.copy(program, tmp_path / "program"))
    for words in (["git", "init", "--quiet"], ["git", "add", "--all"], ["chmod", "-R", "g+w,o-rwx", "."]):
        subprocess.run(words, cwd=checkout, check=True)
    environment = os.environ | {"TZ": "Asia/Tokyo", "LC_ALL": "C"}
    again = made(own, tmp_path / "again", at=checkout, umask=0o077, env=environment)
    assert again == {path.name: path.read_bytes() for path in archives.iterdir()}


def test_time_from_the_environment(program: str) -> None:
    done = run_make(program, "-n", "dist", "CPU=", env=os.environ | {"SOURCE_DATE_EPOCH": "1000"})
    assert {*re.findall(r"--mtime=(\S+)", done.stdout)} == {"@1000"}

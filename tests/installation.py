"""Install the program below a directory with `make install`, and uninstall it again."""

import os
import shutil
import stat
import subprocess
from collections.abc import Callable
from functools import partial
from pathlib import Path

import pytest

from lib.cases import Answer, answer_of
from lib.installed import PREFIX_FILES, SHARED, check_program, check_starts, compiled_modules, files_below, printed
from lib.installed import run_make
from lib.links import dead_links
from lib.paths import ROOT
from lib.scripts import searched_first, write_script

SUMS = "lib/ansible-vault/installed.sha256"
LOCAL_FILES = PREFIX_FILES | {SUMS}
PROGRAM = "bin/ansible-vault"
LINK = "bin/ansible-vault-edit"
MANUAL = "share/man/man1/ansible-vault-edit.1"

Make = Callable[..., subprocess.CompletedProcess[str]]
Begin = Callable[..., subprocess.Popen[str]]


@pytest.fixture
def place(tmp_path: Path) -> Path:
    return tmp_path / "prefix"


@pytest.fixture
def make(program: str, place: Path) -> Make:
    """Return a function that runs make for the prefix `place`, unless its words name another."""
    return partial(run_make, program, "DESTDIR=", f"PREFIX={place}")


def check_files(prefix: Path) -> None:
    """Everything is installed, and each module of the companions is compiled."""
    found = files_below(prefix)
    compiled = {each for each in found if each.endswith(".pyc")}
    modules = {f"lib/ansible-vault/{each}" for each in SHARED}
    assert found - compiled == LOCAL_FILES, "the installed files"
    assert compiled_modules(found) == modules, "the compiled modules"


def test_install(tmp_path: Path, make: Make) -> None:
    words = [f"DESTDIR={tmp_path}/a folder", "PREFIX=/opt/two words"]
    done, prefix = make("install", *words), tmp_path / "a folder/opt/two words"
    assert done.returncode == 0 and done.stdout == "", done
    assert files_below(prefix) == LOCAL_FILES, "the installed files"
    check_program(prefix / PROGRAM, "the installed program")
    documents = [*(prefix / "share/doc/ansible-vault").rglob("*.md")]
    assert [(page.name, link) for page in documents for link in dead_links(page)] == [], "links that lead nowhere"
    assert make("uninstall", *words).returncode == 0
    assert files_below(tmp_path) == set(), "no file is left"
    assert [*tmp_path.rglob("ansible*")] == [], "no folder is left"
    assert make("uninstall", *words).returncode != 0, "make uninstall fails if nothing is installed"


def test_found(make: Make, place: Path) -> None:
    """Everybody can use what somebody with another umask installs. Without DESTDIR, a line says what to type next."""
    done = make("install", umask=0o077)
    wanted = Answer(0, "Type next: hash -r; ansible-vault --version\n", "")
    assert answer_of(done) == wanted, "make install"
    check_files(place)
    modes = {path: stat.S_IMODE(path.stat().st_mode) for path in place.rglob("*")}
    programs = {place / PROGRAM, *(place / "lib/ansible-vault").glob("ansible-vault-*")}
    programs |= {place / "share/doc/ansible-vault/testkit" / name for name in ("ansible-value", "make", "run")}
    run = {path for path in modes if path.is_dir() or path.resolve() in programs}
    assert modes == {path: 0o755 if path in run else 0o644 for path in modes}
    as_nobody = ["setpriv", "--reuid=nobody", "--regid=nogroup", "--clear-groups"] if os.geteuid() == 0 else []
    check_starts(f"{place}/lib/ansible-vault", *as_nobody)


def test_downloaded(tmp_path: Path, program: str, place: Path) -> None:
    """A program that may not be executed yet can be executed once it is installed."""
    downloaded = Path(shutil.copyfile(program, tmp_path / "downloaded"))
    downloaded.chmod(0o644)
    done = run_make(str(downloaded), "install", f"DESTDIR={place}", "PREFIX=")
    assert (done.returncode, stat.S_IMODE((place / PROGRAM).stat().st_mode)) == (0, 0o755)


def test_python(tmp_path: Path, make: Make, place: Path) -> None:
    """The Python that make is told, by default Debian's, runs the companions. If it lacks PyYAML, make says so."""
    lacking = write_script(tmp_path / "lacking", 'case "$*" in *yaml*) exit 1 ;; esac; exec /usr/bin/python3 "$@"')
    for python, said in (("/usr/bin/python3", ""), (lacking, f"{lacking} has no PyYAML, which the companions")):
        done = make("install", *([f"PYTHON={python}"] if said else []))
        assert done.returncode == 0 and done.stderr.startswith(said) and bool(done.stderr) == bool(said), done.stderr
        starts = {path.read_text().split("\n")[0] for path in (place / "lib/ansible-vault").glob("ansible-vault-*")}
        assert starts == {f"#!{python} -IBXutf8", f"#!{python} -ISBXutf8"}
    done = make("install", f"PYTHON={tmp_path}/none", f"PREFIX={tmp_path}/other")
    assert done.returncode != 0 and done.stderr.startswith(f"there is no {tmp_path}/none: "), done.stderr
    assert not (tmp_path / "other").exists(), "nothing is installed for a Python that is missing"


@pytest.mark.parametrize("path", ["", "python3", "two words/python3", "a,b/python3", "a&b/python3", 'a"b/python3'])
def test_refused_python(tmp_path: Path, make: Make, path: str) -> None:
    """A path that cannot be in a first line is refused, even if a Python is there, or if it is for another system."""
    if "/" in path:
        path = write_script(tmp_path / path, 'exec /usr/bin/python3 "$@"')
    for folder in ("", f"DESTDIR={tmp_path}/other"):
        done = make("install", f"PYTHON={path}", f"PREFIX={tmp_path}/prefix", *filter(None, [folder]))
        said = f"PYTHON={path} is no plain path that begins with /\n"
        assert done.returncode != 0 and done.stderr.startswith(said), done.stderr
        assert not (tmp_path / "other").exists() and not (tmp_path / "prefix").exists(), "nothing is installed"


def test_python_of_another_system(tmp_path: Path, make: Make) -> None:
    """Below DESTDIR, the Python need not be there yet."""
    done = make("install", f"DESTDIR={tmp_path}/other", "PREFIX=/usr", "PYTHON=/opt/none/python3")
    assert answer_of(done) == Answer(0, "", ""), "make install"
    library = tmp_path / "other/usr/lib/ansible-vault"
    starts = {path.read_text().split(" ")[0] for path in library.glob("ansible-vault-*")}
    assert starts == {"#!/opt/none/python3"}, "the first lines"


def theirs(path: Path) -> Path:
    """Put a file that is not ours at a path."""
    path.parent.mkdir(parents=True, exist_ok=True)
    path.unlink(missing_ok=True)
    path.write_text("theirs")
    return path


def test_not_replaced(tmp_path: Path, make: Make, place: Path) -> None:
    """Neither what somebody else installed, nor what a package owns."""
    query = f'[ "$1 $2" = "--search {place / MANUAL}" ] && echo "ansible-core: $2"'
    write_script(tmp_path / "tools" / "dpkg-query", query)
    for name, said in ((MANUAL, "belongs to the package ansible-core: "), (LINK, "is there already, and make install")):
        path = theirs(place / name)
        done = make("install", env=searched_first(tmp_path / "tools"))
        assert done.returncode != 0 and done.stderr.startswith(f"{path} {said}"), done.stderr
        assert make("uninstall").returncode != 0, "make uninstall refuses, too"
        assert (files_below(place), path.read_text()) == ({name}, "theirs"), "it stays, and nothing is beside it"
        path.unlink()


def test_replaced(make: Make, place: Path) -> None:
    """REPLACE=yes overwrites another file, which is then ours. It is replaced again, unless it was changed. What an
    older version installed is remembered until `make uninstall`."""
    program, older = theirs(place / PROGRAM), "lib/ansible-vault/older.py"
    assert make("install", "REPLACE=yes").returncode == 0
    check_program(program, "the program that replaced another")
    theirs(place / older)
    sums = place / SUMS
    sums.write_text(printed("sha256sum", older, cwd=place) + sums.read_text())
    assert make("install").returncode == 0
    ours = program.read_bytes()
    theirs(program)
    assert (make("install").returncode != 0, program.read_text()) == (True, "theirs"), "a changed file stays"
    program.write_bytes(ours)
    make("uninstall")
    assert files_below(place) == set(), "what an older version had is removed"


# In place of a tool: the call with this number kills the script that runs the tool.
ENDING = """\
echo >> '{calls}'
[ "$(wc -l < '{calls}')" -ne {number} ] || {{ kill -9 "$PPID"; exit 1; }}
exec {tool} "$@"
"""


@pytest.mark.parametrize("tool, number", [("mv", 1), ("mv", 2), ("install", 9), ("ln", 9)])
def test_interrupted(tmp_path: Path, make: Make, place: Path, tool: str, number: int) -> None:
    """After an interrupted installation, another one is possible, and so is uninstalling it."""
    tools, copy = tmp_path / "tools", tmp_path / "copy"
    write_script(tools / tool, ENDING.format(calls=tmp_path / "calls", number=number, tool=shutil.which(tool)))
    assert make("install", env=searched_first(tools)).returncode != 0, "it is interrupted"
    shutil.copytree(place, copy, symlinks=True)
    if (copy / SUMS).exists():
        assert (make("uninstall", f"PREFIX={copy}").returncode, files_below(copy)) == (0, set()), "removed"
    assert make("install").returncode == 0, "ended"
    check_files(place)


def test_changed(make: Make, place: Path) -> None:
    """`make uninstall` leaves what it did not install, and lists what was changed. It remembers that."""
    make("install")
    stray = "lib/ansible-vault/stray"
    program, link = place / PROGRAM, place / LINK
    program.symlink_to(program.rename(place.with_name("moved")))
    link.unlink()
    link.symlink_to("elsewhere")
    for name in (MANUAL, stray):
        theirs(place / name)
    listed = {f"left, since it was changed: {place / name}" for name in (PROGRAM, LINK, MANUAL)}
    listed.add(f"left, since the next make uninstall needs it: {place / SUMS}")
    for _ in range(2):
        done = make("uninstall")
        assert files_below(place) == {PROGRAM, LINK, MANUAL, SUMS, stray}, "it leaves what is not its own"
        assert (done.returncode, {*done.stdout.splitlines()}) == (0, listed), "and lists it"
    for name in (PROGRAM, LINK, MANUAL):
        (place / name).unlink()
    assert (make("uninstall").stdout, files_below(place)) == ("", {stray}), "the checksums go last"


# Fewer files than the program has, each with its source.
FEW = {f"share/{number}": f"source-{number}" for number in range(20)}


@pytest.fixture
def begin(tmp_path: Path, place: Path) -> Begin:
    """Return a function that begins what make runs, for FEW."""
    sources = tmp_path / "sources"
    sources.mkdir()
    for source in FEW.values():
        (sources / source).write_text(f"{source}\n" * 1000)

    def begin(action: str, replace: str = "no") -> subprocess.Popen[str]:
        named = ["/usr/bin/python3", replace, *map(":".join, FEW.items()), "--"] if action == "install" else []
        words = [str(ROOT / "tools/installed"), action, str(place), SUMS, *named, "share/link:0"]
        return subprocess.Popen(words, cwd=sources, text=True, stdout=subprocess.PIPE, stderr=subprocess.PIPE)

    return begin


def status_and_errors(process: subprocess.Popen[str]) -> tuple[int, str]:
    errors = process.communicate()[1]
    return process.returncode, errors


def test_at_once(tmp_path: Path, place: Path, begin: Begin) -> None:
    """Each of several runs is as if it were alone, though it may have to wait."""
    waiting, nothing = (
        f"{said} below {place}\n"
        for said in ("waiting for another make install or make uninstall", "nothing is installed")
    )
    for _ in range(5):
        installs, uninstall = [begin("install") for _ in range(3)], begin("uninstall")
        ended = {status_and_errors(each) for each in installs}
        assert ended <= {(0, ""), (0, waiting)}, "every installation succeeds"
        assert status_and_errors(uninstall) in {(0, ""), (0, waiting), (1, nothing), (1, waiting + nothing)}
        found = {name: (place / name).read_text() for name in files_below(place) - {SUMS, "share/link"}}
        whole = {name: (tmp_path / "sources" / source).read_text() for name, source in FEW.items()}
        assert found in ({}, whole) and bool(found) == (place / SUMS).exists(), "all files are whole, or there are none"
    assert status_and_errors(begin("install")) == (0, "")
    assert (status_and_errors(begin("uninstall")), files_below(place)) == ((0, ""), set()), "no file is left"


def state_of(folder: Path) -> dict[str, str]:
    """Return what each file below a directory has, and where each link leads."""
    paths = {each: str(each.relative_to(folder)) for each in folder.rglob("*")}
    links = {name: f"leads to {os.readlink(path)}" for path, name in paths.items() if path.is_symlink()}
    texts = {name: path.read_text() for path, name in paths.items() if path.is_file() and name not in links}
    return links | texts | {name: "a folder" for path, name in paths.items() if path.is_dir() and name not in links}


# What is at a path, as shell text. Beside the prefix is a folder with a file.
OCCUPANTS = {
    "a file": "echo theirs > {}",
    "a link to a file": "ln -s ../../theirs/file {}",
    "a link to a folder": "ln -s ../../theirs {}",
    "a link to nothing": "ln -s nowhere {}",
    "a folder": "mkdir {}",
}


@pytest.mark.parametrize("name", ["share/3", "share/link"], ids=["a file of ours", "a link of ours"])
@pytest.mark.parametrize("occupant", OCCUPANTS)
def test_occupied(tmp_path: Path, place: Path, begin: Begin, occupant: str, name: str) -> None:
    """Whatever is at a path stays. REPLACE=yes replaces it, but no folder, and never what a link leads to. What has
    taken the place of ours is left by an uninstallation."""
    path, theirs = place / name, tmp_path / "theirs"
    path.parent.mkdir(parents=True)
    theirs.mkdir()
    (theirs / "file").write_text("theirs")
    occupy = ["sh", "-c", OCCUPANTS[occupant].format(path)]
    subprocess.run(occupy, check=True)
    before = state_of(tmp_path)
    status, errors = status_and_errors(begin("install"))
    assert (status, errors.startswith(f"{path} is ")) == (1, True), "it is refused"
    assert state_of(tmp_path) == before, "nothing is changed"
    status, _ = status_and_errors(begin("install", "yes"))
    if occupant == "a folder":
        assert (status, state_of(tmp_path)) == (1, before), "a folder is not replaced"
        path.rmdir()
        assert status_and_errors(begin("install")) == (0, "")
    whole = {each: (tmp_path / "sources" / source).read_text() for each, source in FEW.items()}
    found = {each: text for each, text in state_of(place).items() if each in [*FEW, "share/link"]}
    assert found == whole | {"share/link": "leads to 0"}, "ours are in place of it"
    assert state_of(theirs) == {"file": "theirs"}, "what a link led to is as before"
    path.unlink()
    subprocess.run(occupy, check=True)
    occupied = state_of(path.parent)[path.name]
    assert status_and_errors(begin("uninstall")) == (0, "")
    assert state_of(place / "share") == {path.name: occupied}, "what is there stays, and only that"
    assert state_of(theirs) == {"file": "theirs"}, "what a link led to is as before"


def test_folder_that_became_a_file(place: Path, begin: Begin) -> None:
    """A file in place of a folder with ours is left, and what is not there is forgotten."""
    assert status_and_errors(begin("install")) == (0, "")
    shutil.rmtree(place / "share")
    (place / "share").write_text("theirs")
    assert status_and_errors(begin("uninstall")) == (0, "")
    assert state_of(place).get("share") == "theirs", "the file is left"
    assert not (place / SUMS).exists(), "nothing is remembered"


DAMAGES: dict[str, Callable[[str], str]] = {
    "empty": lambda text: "",
    "with another line": lambda text: f"{text}theirs\n",
    "without its end": lambda text: text[:-1],
}


@pytest.mark.parametrize("damage", DAMAGES.values(), ids=DAMAGES)
def test_damaged_checksums(place: Path, begin: Begin, damage: Callable[[str], str]) -> None:
    """A damaged list of checksums is refused, and nothing is removed. The message says what to do."""
    assert status_and_errors(begin("install")) == (0, "")
    sums = place / SUMS
    sums.write_text(damage(sums.read_text()))
    before = files_below(place)
    refused = f"{sums} is no list of checksums: remove it, and run make install REPLACE=yes\n"
    for action in ("install", "uninstall"):
        assert (status_and_errors(begin(action)), files_below(place)) == ((1, refused), before)
    sums.unlink()
    assert status_and_errors(begin("install", "yes")) == (0, "")
    assert (status_and_errors(begin("uninstall")), files_below(place)) == ((0, ""), set())


def test_unreadable(place: Path, begin: Begin) -> None:
    """A file is not forgotten because it cannot be read at the moment."""
    assert status_and_errors(begin("install")) == (0, "")
    share = place / "share"
    moved = share.rename(place / "moved")
    share.symlink_to("share")
    status, errors = status_and_errors(begin("uninstall"))
    assert status == 1 and errors.startswith(f"{place / SUMS} lists what cannot be read: share/"), errors
    share.unlink()
    moved.rename(share)
    assert (status_and_errors(begin("uninstall")), files_below(place)) == ((0, ""), set())

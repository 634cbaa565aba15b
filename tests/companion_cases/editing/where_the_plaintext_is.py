"""Where an edit puts plaintext and rescue copies: into directories that nobody else can read, fill or exchange."""

import grp
import os
import pwd
import re
import shutil
import subprocess
from collections import Counter
from collections.abc import Callable
from functools import partial
from pathlib import Path
from typing import NamedTuple

import hypothesis
import pytest
from hypothesis import strategies as st

from ansible_vault_companions.editing import private_directory
from ansible_vault_companions.editing.private_directory import FOLDER_PREFIX, PrivateDirectory, require_own_folder
from ansible_vault_companions.refusals import Refused
from companion_cases import CHANGE, CHANGED, EDIT, HOOK, MERGE, NOBODY, ROTATE, TEXT, WITH, Place
from companion_cases import decrypted, ended, run_changed, sealed, silent, to_new, versions
from companion_cases.repository import add_and_commit, under_git
from lib.needs import needs, needs_root

# Another user, and a group that this one is in.
OTHER, SHARED = 65_533, 65_532
EXAMPLES = 500


class User(NamedTuple):
    number: int
    groups: list[int]


class Folder(NamedTuple):
    owner: int
    group: int
    mode: int


class Used(NamedTuple):
    """Whether a directory has the plaintext of an edit, and its copy."""

    has_plaintext: bool
    has_copy: bool


def find_user_with_group() -> User:
    """Return a user with a group of the same name, which has no other member."""
    groups = {group.gr_name: group for group in grp.getgrall()}
    for user in pwd.getpwall():
        group = groups.get(user.pw_name)
        if user.pw_uid and group and group.gr_gid == user.pw_gid and not group.gr_mem:
            return User(user.pw_uid, [user.pw_gid])
    pytest.skip("no user has a group of the same name")


def succeeds(user: User, work: Callable[[], object]) -> bool:
    """Return whether some work of another user raises no OSError."""
    child = os.fork()
    if child == 0:
        status = 2
        try:
            os.setgroups(user.groups)
            os.setgid(user.groups[0])
            os.setuid(user.number)
            work()
            status = 0
        except OSError:
            status = 1
        finally:
            os._exit(status)
    status = os.waitstatus_to_exitcode(os.waitpid(child, 0)[1])
    assert status in (0, 1), "the work fails otherwise"
    return status == 0


def make_chain(top: Path, folders: list[Folder]) -> list[Path]:
    """Make directories, each in the one before."""
    paths = []
    for folder in folders:
        top /= "folder"
        top.mkdir()
        os.chown(top, folder.owner, folder.group)
        top.chmod(folder.mode)
        paths.append(top)
    return paths


def attack(paths: list[Path]) -> None:
    """Do to the last directory what only its user may: enter, read, fill or exchange it. Fails if nothing of that
    works. An owner may allow it first."""
    own = paths[-1]
    ways: list[Callable[[], object]] = [
        lambda: os.lstat(own / "a"),
        lambda: os.listdir(own),
        lambda: os.mkdir(own / "b"),
    ]
    for path in paths:
        ways += [partial(path.chmod, 0o777), partial(path.rename, path.with_name("away"))]
    if not any([works(way) for way in ways]):
        raise PermissionError


def works(way: Callable[[], object]) -> bool:
    try:
        way()
    except OSError:
        return False
    return True


MODES = [0o700, 0o700, 0o700, 0o755, 0o750, 0o711, 0o775, 0o770, 0o777, 0o1777, 0o1775]


def test_nobody_else(tmp_path: Path, request: pytest.FixtureRequest) -> None:
    """What counts as the user's own, the system lets nobody else touch."""
    needs_root()
    user, other = find_user_with_group(), User(OTHER, [SHARED])
    owners, groups = [user.number] * 3 + [0, OTHER], [*user.groups, SHARED]
    folders = st.builds(Folder, st.sampled_from(owners), st.sampled_from(groups), st.sampled_from(MODES))
    counts: Counter[bool] = Counter()

    @hypothesis.seed(request.config.getoption("--seed"))
    @hypothesis.settings(max_examples=EXAMPLES, deadline=None, database=None)
    @hypothesis.given(st.lists(folders, max_size=2), folders)
    def check(above: list[Folder], own: Folder) -> None:
        top = tmp_path / "top"
        top.mkdir()
        paths = make_chain(top, [*above, own])
        (paths[-1] / "a").touch()
        is_own = succeeds(user, lambda: require_own_folder(str(paths[-1])))
        is_open = succeeds(other, lambda: attack(paths))
        shutil.rmtree(top)
        counts[is_own] += 1
        assert not (is_own and is_open), "nobody else may touch the user's own"

    check()
    assert min(counts[True], counts[False]) > 15, counts


def test_exchanged_directory(tmp_path: Path, monkeypatch: pytest.MonkeyPatch) -> None:
    """If somebody exchanges the new directory before it is looked at, nothing is removed from what took its place."""
    own = tmp_path / "own"
    own.mkdir()
    (own / "a.yml").write_bytes(b"mine")

    def exchange(folder: str) -> None:
        os.rename(folder, f"{folder}.away")
        os.symlink(own, folder)
        require_own_folder(folder)

    monkeypatch.setattr(private_directory, "_list_places", lambda: [str(tmp_path)])
    monkeypatch.setattr(private_directory, "require_own_folder", exchange)
    with pytest.raises(Refused, match="no private directory can be made"):
        PrivateDirectory("a.yml", b"text")
    assert {path.name: path.read_bytes() for path in own.iterdir()} == {"a.yml": b"mine"}


ACCESS_LISTS = [f"u:{OTHER}:rwx", f"g:{SHARED}:rwx", f"u:{OTHER}:-wx", f"u:{OTHER}:r-x"]


@pytest.mark.parametrize("group", ("the user's", "another"))
@pytest.mark.parametrize("mode", (0o700, 0o750, 0o755, 0o770, 0o775))
def test_groups(tmp_path: Path, mode: int, group: str) -> None:
    """A directory that a group may write to is open to others, whoever is in the group by name, by its number or by a
    list, and so is one with an access control list that lets anybody else write."""
    needs_root()
    needs("setfacl")
    user = find_user_with_group()
    own = Folder(user.number, user.groups[0] if group == "the user's" else SHARED, 0o700)
    for number, access in enumerate(("", *ACCESS_LISTS)):
        (tmp_path / str(number)).mkdir()
        paths = make_chain(tmp_path / str(number), [own._replace(mode=mode), own])
        if access:
            subprocess.run(["setfacl", "-m", access, paths[0]], check=True)
        is_open = mode & 0o020 > 0 or "w" in access
        assert succeeds(user, lambda: require_own_folder(str(paths[-1]))) == (not is_open), access


class Kind(NamedTuple):
    """A directory's owner and mode, and whether plaintext is put there, and into the user's own below. Copies are, if
    the user can write there."""

    owner: int
    mode: int
    is_used: bool
    is_used_below: bool
    has_copy: bool = True


KINDS = {
    "mine": Kind(owner=NOBODY, mode=0o700, is_used=True, is_used_below=True),
    "mine, readable": Kind(owner=NOBODY, mode=0o755, is_used=True, is_used_below=True),
    "mine, writable": Kind(owner=NOBODY, mode=0o777, is_used=False, is_used_below=False),
    "mine, writable for a group": Kind(owner=NOBODY, mode=0o770, is_used=False, is_used_below=False),
    "mine, sticky": Kind(owner=NOBODY, mode=0o1777, is_used=True, is_used_below=True),
    "another's": Kind(owner=OTHER, mode=0o777, is_used=False, is_used_below=False),
    "another's, sticky": Kind(owner=OTHER, mode=0o1777, is_used=False, is_used_below=False),
    "root's": Kind(owner=0, mode=0o755, is_used=False, is_used_below=True, has_copy=False),
    "root's, writable": Kind(owner=0, mode=0o777, is_used=False, is_used_below=False),
    "root's, sticky": Kind(owner=0, mode=0o1777, is_used=True, is_used_below=True),
}


@pytest.fixture
def of_nobody(place: Place) -> Place:
    """A place of a user who is not root, with a vault."""
    needs_root()
    place.put("all.yml", sealed("old"))
    for path in (place.path, *place.path.rglob("*")):
        os.chown(path, NOBODY, NOBODY, follow_symlinks=False)
    return place


# Notes the place of the plaintext, changes it, and fails.
FAIL = f'dirname "${{1%/*}}" > ../seen; {CHANGE}; exit 3'
NO_COPY = "set XDG_STATE_HOME to a directory of your own; what you saved is left in plaintext in "
AS_NOBODY = ["setpriv", f"--reuid={NOBODY}", f"--regid={NOBODY}", "--clear-groups"]


def fail_in(place: Place, where: str, runner: list[str]) -> Used:
    """Run an edit that fails, with this directory for its plaintext and its copy. What is not there is in a usual one,
    and only the user can open it."""
    place.environment |= {"XDG_RUNTIME_DIR": where, "XDG_STATE_HOME": where}
    words = [*runner, EDIT, *place.by_file("old"), "all.yml"]
    done = place.run(*words, EDITOR=place.script(FAIL, "editor"))
    ended("the edit", done, 1, "all.yml: the editor failed")
    [(how, kept)] = re.findall(r"; what you saved is (encrypted|left in plaintext) in (.+)\n", done.stderr)
    is_encrypted = how == "encrypted"
    file = Path(kept) if is_encrypted else Path(kept, "all.yml")
    content = file.read_bytes()
    assert oct(file.stat().st_mode & 0o777) == "0o600", "only the user reads the file"
    assert oct(file.parent.stat().st_mode & 0o777) == "0o700", "only the user opens its folder"
    text = decrypted("old", content) if is_encrypted else content
    assert text is not None and text.endswith(CHANGED), "what was saved"
    if not is_encrypted:
        assert NO_COPY in done.stderr, "why there is no copy"
        shutil.rmtree(kept)
    real = os.path.realpath(where)
    seen = (place.path / "seen").read_text().strip()
    assert seen in (real, "/dev/shm"), "where the editor sees the plaintext"
    return Used(has_plaintext=seen == real, has_copy=kept.startswith(f"{real}/ansible-vault/"))


@pytest.mark.parametrize("position", ("itself", "above", "link", "repository"))
@pytest.mark.parametrize("kind", KINDS.values(), ids=KINDS)
def test_kinds(of_nobody: Place, kind: Kind, position: str) -> None:
    real = of_nobody.path / "real"
    link = of_nobody.path / "link"
    own = real / "own"
    own.mkdir(parents=True)
    own.chmod(0o700)
    os.chown(own, NOBODY, NOBODY)
    if position == "repository":
        (real / ".git").mkdir()
    link.symlink_to(real)
    os.chown(real, kind.owner, SHARED)
    real.chmod(kind.mode)
    where = {"above": own, "link": link}.get(position, real)
    is_used = kind.is_used_below if position == "above" else kind.is_used
    assert fail_in(of_nobody, str(where), AS_NOBODY) == Used(
        has_plaintext=is_used, has_copy=kind.has_copy or position == "above"
    )
    assert [*real.rglob(f"{FOLDER_PREFIX}*")] == [], "nothing else is left"


class Other(NamedTuple):
    """A umask, and whether there is a copy in what is no directory, or is missing, so that one is made for the copy."""

    umask: str
    has_copy: bool


OTHERS = {
    "missing": Other("022", has_copy=True),
    "missing/too": Other("000", has_copy=True),
    "all.yml": Other("022", has_copy=False),
    "../runtime": Other("022", has_copy=False),
}


@pytest.mark.parametrize("name", OTHERS)
def test_others(place: Place, name: str) -> None:
    """The directory that is made for copies is closed to others, even with a umask of 000."""
    place.put("all.yml", sealed("old"))
    umask, has_copy = OTHERS[name]
    where = name if name.startswith(".") else str(place.tree / name)
    used = fail_in(place, where, ["sh", "-c", f'umask {umask}; exec "$@"', "sh"])
    assert used == Used(has_plaintext=False, has_copy=has_copy)
    assert len(place.copies()) == (name == "../runtime"), "the usual directory has the copy"


UNSEEN = """
look_at = os.lstat
def fail(path, **options):
    if os.fspath(path).endswith("state/ansible-vault"):
        raise PermissionError(13, "no look", path)
    return look_at(path, **options)
os.lstat = fail
"""


def test_copies_that_cannot_be_seen(place: Place) -> None:
    """An edit goes on without them, and with --resume, the message says why it does not."""
    (place.path / ".local/state/ansible-vault").mkdir(0o700, parents=True)
    place.put("all.yml", sealed("old"))
    words = [*place.by_file("old"), "all.yml"]
    done = run_changed(place, EDIT, UNSEEN, [*words, "--resume"], EDITOR=place.script(CHANGE, "editor"))
    ended("resumed", done, 1, f"no copies can be kept in {place.path}/.local/state/ansible-vault (no look); ")
    silent("an edit", run_changed(place, EDIT, UNSEEN, words, EDITOR=place.script(CHANGE, "editor")))
    assert decrypted("old", place.get("all.yml")) == CHANGED, "what was saved"


def test_relative_home(place: Place) -> None:
    """A relative home directory may lead into a stranger's, so no copy is kept there, and none is looked for."""
    place.put("all.yml", sealed("old"))
    words = [EDIT, *place.by_file("old"), "all.yml"]
    done = place.run(*words, EDITOR=place.script(FAIL, "editor"), HOME="home")
    why = "an encrypted copy cannot be kept: home/.local/state is relative; set XDG_STATE_HOME to an absolute path; "
    ended("the edit", done, 1, why, "what you saved is left in plaintext in ")
    done = place.run(*words, "--resume", EDITOR="true", HOME="home")
    ended("resumed", done, 1, "home/.local/state is relative")
    assert place.names() == ["all.yml"], "no directory is made"


# Mounts a file system, and fills it.
MOUNTS = {
    "full": ("size=64k", "head -c 99k /dev/zero > ../runtime/full"),
    "no room for files": ("nr_inodes=2", "touch ../runtime/full"),
    "read-only": ("ro", "false"),
}


@pytest.mark.parametrize("options, fill", MOUNTS.values(), ids=MOUNTS)
def test_mounts(place: Place, options: str, fill: str) -> None:
    """The next place is taken, and nothing is left in this one."""
    needs_root()
    needs("unshare")
    place.put("all.yml", sealed("old"))
    lines = f'mount -t tmpfs -o mode=700,{options} tmpfs ../runtime && ! {fill} 2> ../why; "$@"; status=$?'
    runner = ["unshare", "--mount", "sh", "-c", f"{lines}; ls ../runtime > ../left; exit $status", "sh"]
    assert fail_in(place, str(place.runtime), runner) == Used(has_plaintext=False, has_copy=False)
    assert {*place.get("../left").split()} <= {b"full", b"ansible-vault"}, "what is left there"


NO_PLACE = """
from ansible_vault_companions.editing import private_directory
private_directory._list_places = lambda: ["/proc", os.environ["HOME"]]
"""


def test_no_place(place: Place) -> None:
    """The message names each place, why it cannot be used, and what to do."""
    place.put("all.yml", sealed("old"))
    place.path.chmod(0o777)
    words = [*place.by_file("old"), "all.yml"]
    done = run_changed(place, EDIT, NO_PLACE, words, EDITOR=place.script("touch ../started", "editor"))
    why = rf"\(/proc: .+; {place.path}: others can write to {place.path}\); set TMPDIR to a directory that only you can"
    assert re.fullmatch(rf"{EDIT}: all.yml: no private directory .+ {why} open\n", done.stderr), done.stderr
    assert not (place.path / "started").exists(), "no editor is started"
    assert [*place.path.glob(f"{FOLDER_PREFIX}*")] == [], "no directory is left"


def test_temporary_files(place: Place, git: None) -> None:
    """Only an edit has temporary files elsewhere than beside what it replaces, so no directory of another user matters
    to other companions. The places for them are missing."""
    under_git(place, "vault.yml diff=ansible-vault\n")
    for content in (b"", sealed("old")):
        place.put("vault.yml", content)
        add_and_commit(place)
    missing = str(place.path / "missing")
    variables = {"TMPDIR": missing, "XDG_RUNTIME_DIR": missing, "XDG_STATE_HOME": missing}
    for words in (["--since", "HEAD~1"], ["--all"], ["vault.yml"]):
        silent(f"the hook, {words}", place.run(HOOK, *words, **variables))
    silent("a new password", place.run(WITH, "rekey", *to_new(place), "vault.yml", **variables))
    place.put("vault.yml", sealed("old"))
    ended("a rotation", place.run(ROTATE, *to_new(place), ".", **variables), 0, "1 rotated")
    merged = versions(place, "vault.yml", sealed("old"), sealed("old", CHANGED), sealed("old", TEXT))
    silent("a merge", place.run(MERGE, *place.by_file("old"), *merged, **variables))
    assert decrypted("old", place.get("vault.yml")) == CHANGED

"""ansible-vault-hook --install and --uninstall: the hooks, and the settings for git diff and git merge."""

import os
import shlex
import shutil
from itertools import combinations
from typing import NamedTuple

import pytest

from companion_cases import HOOK, MERGE, ROTATE, TEXT, TEXTCONV, Place, ended, run_changed, sealed, silent, summary
from companion_cases import check_answer, to_new
from companion_cases.repository import AUTHOR, BASE, OURS, THEIRS, add_and_commit, fork, told, under_git
from companion_cases.terminal import ask

pytestmark = pytest.mark.usefixtures("git")

ATTRIBUTES = "*.vault.yml diff=ansible-vault merge=ansible-vault\n"
NAMES = ["pre-commit", "pre-merge-commit"]
OR_ELSE = '|| { [ "$?" -eq 128 ] || git merge-file -q %A %O %B; exit 1; }'
DIFF, DRIVER = SETTINGS = ["diff.ansible-vault.textconv", "merge.ansible-vault.driver"]
CACHE = "diff.ansible-vault.cachetextconv"
NOT_IN_GIT = "git diff in this clone lacks the new password: give it to ansible-vault-hook --install, too\n"


@pytest.mark.parametrize("file", ["", ".git/config", "../settings"])
def test_installed(place: Place, file: str) -> None:
    """One installation is for all worktrees, from any of their directories, wherever a setting has the hooks."""
    under_git(place, ATTRIBUTES)
    add_and_commit(place)
    place.shell("git worktree add -q ../second && mkdir inner")
    place.environment["GIT_CONFIG_GLOBAL"] = f"{place.path}/settings"
    hooks = place.path / "hooks" if file else place.tree / ".git/hooks"
    if file:
        # A relative path starts at the top directory of the repository.
        given = "../hooks" if file == ".git/config" else str(hooks)
        place.run("git", "config", "--file", file, "core.hooksPath", given)
    for _ in range(2):
        done = place.run(HOOK, "--install", folder="inner")
        ended("it is installed", done, 0, *(f"{hooks}/{name}: installed\n" for name in NAMES))
    for folder in (".", "../second"):
        place.put(f"{folder}/a.vault.yml", TEXT)
        done = place.shell("git add -A && git commit -qm change", folder=folder)
        assert told(done) == ["a.vault.yml is not encrypted"]
    for what in ("removed", "not installed"):
        done = place.run(HOOK, "--uninstall", folder="../second")
        lines = [
            *(f"{hooks}/{name}: {what}" for name in NAMES),
            *(f"{setting}: not set" for setting in [*SETTINGS, CACHE]),
        ]
        assert (done.returncode, done.stdout.splitlines(), done.stderr) == (0, lines, ""), what
    silent("git runs no hook", add_and_commit(place))


def test_drivers(place: Place) -> None:
    """With secrets, git diff and git merge work, whichever shell git runs. --uninstall undoes everything."""
    under_git(place, ATTRIBUTES)
    (place.secrets / "d@%Oev").symlink_to(place.secret("dev"))
    secrets = ["--vault-id=dev@~/secrets/d@%Oev", "--vault-password-file=~/secrets/old"]
    place.put("b.vault.yml", sealed("dev", label="dev"))
    fork(place, *({"a.vault.yml": sealed("old", text)} for text in (BASE, OURS, THEIRS)))
    before = place.get(".git/config")
    words = shlex.join(secrets)
    values = [f"{place.tools}/{TEXTCONV} {words}"]
    values.append(f"{place.tools}/{MERGE} {words.replace('%', '%%')} %O %A %B %P {OR_ELSE}")
    for status in ("set to", "is already"):
        done = place.run(HOOK, "--install", *secrets)
        lines = [f"{setting}: {status} {value}" for setting, value in zip(SETTINGS, values)]
        lines.append(f"{CACHE}: set to false")
        assert (done.returncode, done.stderr, done.stdout.splitlines()[2:5]) == (0, "", lines), status
    ended("git diff", place.shell("git show; git show HEAD^"), 0, "-one: 1\n+one: I", f"+{TEXT.decode()}")
    ended("git merge", place.shell("git merge --no-edit theirs && git show -m"), 0, "+one: I", "+four: IV")
    (place.tools / MERGE).unlink()
    done = place.shell("git reset -q --hard HEAD^ && git merge --no-edit theirs; grep -c '^<<<<<<< ' a.vault.yml")
    assert done.stdout.endswith("fix conflicts and then commit the result.\n1\n"), "without the driver"
    done = place.run(HOOK, "--uninstall")
    ended("it is undone", done, 0, f"{DIFF}: removed", f"{DRIVER}: removed", f"{CACHE}: removed")
    assert place.get(".git/config") == before, "nothing is left of it"


@pytest.mark.parametrize("name", ["--vault-id", "--vault-password-file", "--"])
def test_file_with_the_name_of_an_option(place: Place, name: str) -> None:
    """Anybody can commit it, and git diff and git merge still work."""
    under_git(place, ATTRIBUTES)
    place.put(name, b"")
    fork(place, *({"a.vault.yml": sealed("old", text)} for text in (BASE, OURS, THEIRS)))
    words = [f"--vault-id=dev@{place.secret('dev')}", f"--vault-password-file={place.secret('old')}"]
    ended("it is installed", place.run(HOOK, "--install", *words), 0)
    ended("git show", place.run("git", "show"), 0, "-one: 1\n+one: I")
    ended("git merge", place.shell("git merge --no-edit theirs && git show -m"), 0, "+one: I", "+four: IV")


@pytest.mark.parametrize("scope", ["--local", "--global"])
def test_no_cache(place: Place, scope: str) -> None:
    """Whatever the user has set, git keeps no plaintext among its objects."""
    under_git(place, ATTRIBUTES)
    place.environment["GIT_CONFIG_GLOBAL"] = f"{place.path}/settings"
    place.run("git", "config", scope, CACHE, "true")
    fork(place, *({"a.vault.yml": sealed("old", text)} for text in (BASE, OURS, THEIRS)))
    place.run(HOOK, "--install", *place.by_file("old"))
    ended("git show", place.run("git", "show"), 0, "-one: 1\n+one: I")
    assert place.run("git", "for-each-ref", "refs/notes").stdout == ""


@pytest.mark.parametrize("names, lacks", [([], False), (["old"], True), (["new"], False), (["old", "new"], False)])
def test_rotation(place: Place, names: list[str], lacks: bool) -> None:
    """A rotation says if git diff lacks the new password, since it would show digits from now on."""
    under_git(place, ATTRIBUTES)
    place.put("a.vault.yml", sealed("old"))
    if names:
        place.run(HOOK, "--install", *(f"--vault-password-file=~/secrets/{name}" for name in names))
    line = [ROTATE, "--vault-id=~/secrets/old", "--new-vault-id=~/secrets/new", "."]
    runs = {
        "a dry run": place.run(*line, "--dry-run"),
        "a rotation": place.run(*line),
        "another, with nothing to do": place.run(*line),
    }
    for what, done in runs.items():
        assert (NOT_IN_GIT in done.stdout) == (lacks and what == "a rotation"), what


class Words(NamedTuple):
    """What follows the program in git's setting, and whether git diff then lacks the new password."""

    words: str
    lacks: bool


WORDS = {
    "a home directory": Words("--vault-id 'prod@~/secrets/new'", lacks=False),
    "a variable": Words("--vault-id='$HOME/secrets/new'", lacks=False),
    "another spelling": Words("--vault-pass-file {secrets}/../secrets/new", lacks=False),
    "a path from the top": Words("--vault-password-file=../secrets/new", lacks=False),
    "a link": Words("--vault-id {secrets}/link", lacks=False),
    "beside another": Words("--vault-id=~nobody-has-this-name/new --vault-id={secrets}/new", lacks=False),
    "a longer name": Words("--vault-id prod@{secrets}/new.old", lacks=True),
    "a label": Words("--vault-id {secrets}/new@{secrets}/old", lacks=True),
    "another option": Words("--value {secrets}/new", lacks=True),
    "a missing file": Words("--vault-id {secrets}/none", lacks=True),
    "no home directory": Words("--vault-id=~nobody-has-this-name/new", lacks=True),
    "a prompt": Words("--vault-id prompt", lacks=True),
    "an open quote": Words("--vault-id {secrets}/new '", lacks=True),
    "a missing value": Words("--vault-id {secrets}/new --vault-id", lacks=True),
    "help": Words("--help", lacks=True),
}


@pytest.mark.parametrize("words, lacks", WORDS.values(), ids=WORDS)
def test_setting_in_other_words(place: Place, words: str, lacks: bool) -> None:
    """What counts is the file that an option of the setting leads to, not how its path is written."""
    under_git(place, ATTRIBUTES)
    place.put("inner/a.vault.yml", sealed("old"))
    (place.secrets / "new.old").symlink_to("old")
    for link in (place.secrets / "link", place.tree / "prompt"):
        link.symlink_to(place.secret("new"))
    place.run("git", "config", DIFF, f"{TEXTCONV} {words.format(secrets=place.secrets)}")
    done = place.run(ROTATE, *to_new(place), ".", folder="inner")
    last = NOT_IN_GIT if lacks else ""
    check_answer("the rotation", done, output=f"./a.vault.yml: rotated\n{summary(1)}\n{last}")


@pytest.mark.parametrize("given", [[], ["new"], ["dev2"], ["new", "dev2"]], ids=str)
def test_several_new_passwords(place: Place, given: list[str]) -> None:
    """Each of several new passwords has to be in git's setting."""
    under_git(place, ATTRIBUTES)
    place.put("a.vault.yml", sealed("old"))
    place.put("b.vault.yml", sealed("dev", label="dev"))
    words = [f"--vault-id={place.secret(name)}" for name in ("old", "dev", *given)]
    place.run("git", "config", DIFF, " ".join([TEXTCONV, *words]))
    rotate = [ROTATE, *to_new(place), *place.by_id("dev", "dev"), *place.by_id("dev", "dev2", "new-"), "."]
    lines = "./a.vault.yml: rotated\n./b.vault.yml: rotated\n"
    last = "" if len(given) == 2 else NOT_IN_GIT
    check_answer("the rotation", place.run(*rotate), output=f"{lines}{summary(2)}\n{last}")


def test_typed_new_password(place: Place) -> None:
    """It has no file that could be in git's setting."""
    under_git(place, ATTRIBUTES)
    place.put("a.vault.yml", sealed("old"))
    place.run("git", "config", DIFF, f"{TEXTCONV} --vault-id={place.secret('old')}")
    answers = [("New vault password (default): ", b"typed\n"), ("Confirm new vault password (default): ", b"typed\n")]
    session = ask(place, ROTATE, *place.by_file("old"), "--new-vault-id=prompt", ".", answers=answers)
    assert (session.returncode, session.stdout.endswith(f"\n{summary(1)}\n")) == (0, True), session


def test_new_password_without_a_file(place: Place) -> None:
    """A new password whose file is gone after the rotation is in no setting, even if the setting's is gone, too."""
    under_git(place, ATTRIBUTES)
    place.put("a.vault.yml", sealed("old"))
    place.run("git", "config", DIFF, f"{TEXTCONV} --vault-id none")
    place.wrap_tool("rm -f ../secrets/new")
    ended("the rotation", place.run(ROTATE, *to_new(place), "."), 0, f"{summary(1)}\n{NOT_IN_GIT}")


def test_links(place: Place) -> None:
    """No link of a repository leads an installation out of it. Links in git's own directory, and those outside of the
    repository, are the user's."""
    place.shell("git init -q project && mkdir out own && ln -s ../out project/.githooks && ln -s out way")
    for given in (".githooks", f"{place.tree}/project/.githooks", ".githooks/new", ".githooks/../out"):
        place.shell(f"git config core.hooksPath {given}", folder="project")
        for option in ("--install", "--uninstall"):
            done = place.run(HOOK, option, folder="project")
            why = f"{HOOK}: core.hooksPath: a link leads out of {place.tree}/project; name {place.tree}/out"
            ended(f"{option} of {given}", done, 1, why)
            assert done.stdout == "", "it says of no file that it is installed"
            assert os.listdir(place.tree / "out") == [], "nothing is written there"
    for change, folder in {
        "git config core.hooksPath ../way": "out",
        "git config --unset core.hooksPath; rm -r .git/hooks; ln -s ../../own .git/hooks": "own",
        "git config core.hooksPath .git/hooks": "own",
    }.items():
        place.shell(change, folder="project")
        ended(change, place.run(HOOK, "--install", folder="project"), 0, "pre-commit: installed")
        assert sorted(os.listdir(place.tree / folder)) == NAMES
        ended(change, place.run(HOOK, "--uninstall", folder="project"), 0, "pre-commit: removed")
    place.environment |= AUTHOR
    worktree = "git config --unset core.hooksPath; git commit -qm one --allow-empty; git worktree add -q ../second"
    place.shell(worktree, folder="project")
    ended("from a worktree", place.run(HOOK, "--install", folder="second"), 0, "pre-commit: installed")
    assert sorted(os.listdir(place.tree / "own")) == NAMES


def test_those_of_others(place: Place) -> None:
    """A link to an earlier location of this program is replaced. Other hooks stay, and so do settings that run other
    programs, whether they are the repository's or the user's."""
    under_git(place, ATTRIBUTES)
    hook, other = (place.tree / ".git/hooks" / name for name in NAMES)
    hook.parent.mkdir(exist_ok=True)
    hook.symlink_to("/nowhere/else")
    other.symlink_to(place.path / "old" / HOOK)
    place.put("../settings", b'[diff "ansible-vault"]\ntextconv = cat --\n')
    place.environment["GIT_CONFIG_GLOBAL"] = str(place.path / "settings")
    place.shell(f"git config {DRIVER} mine")
    done = place.run(HOOK, "--install", *place.by_file("old"))
    why = f"{hook} exists already; add this line below its first one: {place.tools}/{HOOK} || exit 1\n"
    ended("an installation", done, 1, why, f"{DIFF} is already `cat --`; to change it, unset it", f"{DRIVER} is")
    assert os.readlink(other) == f"{place.tools}/{HOOK}"
    left = f"{hook}: left alone, since --install did not make it\n{other}: removed\n"
    left += f"{DIFF}: not set\n{DRIVER}: left alone, since --install did not set it: mine\n{CACHE}: removed\n"
    ended("it is undone", place.run(HOOK, "--uninstall"), 0, left)
    assert os.readlink(hook) == "/nowhere/else"
    assert place.shell("git config --get-regexp ansible-vault").stdout == f"{DIFF} cat --\n{DRIVER} mine\n"


# Commands that are not ours, with the name of the companion in braces.
OTHERS = ["mine", "mine {} --vault-id x", "/opt/not-{} x", "/opt/{}-not", "/opt/{}/mine", "'{} x", "'{} x'", "env {}"]


@pytest.mark.parametrize("command", OTHERS)
@pytest.mark.parametrize("other", NAMES + SETTINGS)
def test_one_of_others(place: Place, other: str, command: str) -> None:
    """Whichever hook or setting is somebody else's, it stays, the status is 1, and all else is set up."""
    under_git(place, ATTRIBUTES)
    mine = command.format(TEXTCONV if other == DIFF else MERGE)
    if other in NAMES:
        place.put(f".git/hooks/{other}", f"#!/bin/sh\n{mine}\n".encode(), 0o755)
    else:
        place.run("git", "config", other, mine)
    done = place.run(HOOK, "--install", *place.by_file("old"))
    hooks = {name: place.tree / ".git/hooks" / name for name in NAMES}
    assert {name for name, hook in hooks.items() if hook.is_symlink()} == {*NAMES} - {other}
    values = {setting: place.run("git", "config", setting).stdout for setting in SETTINGS}
    assert {setting for setting, value in values.items() if value != f"{mine}\n"} == {*SETTINGS} - {other}
    assert len(told(done)) == 1 and f"{other} " in done.stderr, "it alone is named"
    ended("what is left", place.run(HOOK, "--uninstall"), 0)
    if other not in NAMES:
        assert place.run("git", "config", other).stdout == f"{mine}\n", "it stays"


def test_files_beside_a_hook(place: Place) -> None:
    """Only what an installation has left that was killed is removed."""
    under_git(place, ATTRIBUTES)
    files = {f".git/hooks/{name}.{suffix}": b"mine" for name in NAMES for suffix in ("new", "old", "sample")}
    for name, content in files.items():
        place.put(name, content)
    place.shell(f"ln -s /nowhere/{HOOK} .git/hooks/.ansible-vault-hook.new")
    ended("an installation", place.run(HOOK, "--install"), 0)
    for name in NAMES:
        assert os.readlink(place.tree / ".git/hooks" / name) == f"{place.tools}/{HOOK}"
    assert {name: place.get(name) for name in files} == files, "they stay"
    assert not os.path.lexists(place.tree / ".git/hooks/.ansible-vault-hook.new")


def test_every_password(place: Place) -> None:
    """Both settings have all passwords, however many there are of each kind."""
    under_git(place, "")
    words = [*place.by_id("dev", "dev"), *place.by_id("prod", "prod"), *place.by_file("old"), *place.by_file("new")]
    ended("it is installed", place.run(HOOK, "--install", *words), 0)
    for setting in SETTINGS:
        command, _, _ = place.run("git", "config", setting).stdout.partition(" %O ")
        assert shlex.split(command)[1:] == ["=".join(pair) for pair in zip(words[::2], words[1::2])], setting


@pytest.mark.parametrize("is_alone", (False, True), ids=["with the others", "a link alone"])
def test_awkward_folders(place: Place, is_alone: bool) -> None:
    """git runs the companions in a directory of any name, also if only a link to the hook is installed elsewhere."""
    under_git(place, ATTRIBUTES)
    hook = shutil.copytree(place.companions, place.path / "it's 50% %A $(touch x)") / HOOK
    if is_alone:
        link = place.path / "a link" / HOOK
        link.parent.mkdir()
        link.symlink_to(hook)
        hook = link
    fork(place, *({"a.vault.yml": sealed("old", text)} for text in (BASE, OURS, THEIRS)))
    ended("it is installed", place.run(str(hook), "--install", *place.by_file("old")), 0)
    ended("git show", place.run("git", "show"), 0, "-one: 1\n+one: I")
    merged = place.shell("git merge --no-edit theirs && git show --textconv HEAD:a.vault.yml")
    ended("git merge", merged, 0, "one: I\n", "four: IV\n")
    place.put("b.vault.yml", TEXT)
    assert told(add_and_commit(place)) == ["b.vault.yml is not encrypted"]
    assert [*place.path.rglob("x")] == [], "nothing within the name is run"


@pytest.mark.parametrize("count", (1, 2, 3))
def test_several_values(place: Place, count: int) -> None:
    """However often this clone has a setting, an installation leaves one value, and --uninstall leaves none."""
    under_git(place, ATTRIBUTES)
    before = place.get(".git/config")
    for option, last in (("--install", "set to"), ("--uninstall", "removed")):
        for number in range(count):
            for setting, name in zip(SETTINGS, (TEXTCONV, MERGE)):
                place.run("git", "config", "--add", setting, f"/old/{number}/{name}")
        done = place.run(HOOK, option, *(place.by_file("old") if option == "--install" else []))
        ended(option, done, 0, *(f"{setting}: {last}" for setting in SETTINGS))
        values = [place.run("git", "config", "--get-all", setting).stdout.splitlines() for setting in SETTINGS]
        wanted = 1 if option == "--install" else 0
        assert [len(each) for each in values] == [wanted] * 2, f"{option}: the values that are left"
        assert not any("/old/" in line for each in values for line in each), f"{option}: the earlier values"
    assert place.get(".git/config") == before, "nothing is left"


def test_refused_secrets(place: Place) -> None:
    """A clone could bring a secret at a relative path along, and only an installation has a use for secrets."""
    under_git(place, ATTRIBUTES)
    before, why = place.get(".git/config"), "has to begin with / or a home directory's ~"
    by_path, by_id = "--install --vault-password-file", "--install --vault-id"
    whys = {f"{by_path}=pass": why, f"{by_id}=dev@pass": why, f"{by_id}=dev@": why}
    whys |= {f"{by_path}=~nobody-has-this-name/pass": why, f"{by_id}=dev@~nobody-has-this-name/pass": why}
    for line, why in (whys | {"--all --vault-id=/pass": "only --install takes passwords"}).items():
        ended(line, place.run(HOOK, *line.split()), 2, why)
    assert place.get(".git/config") == before and ".git/hooks/pre-commit" not in place.names(), "nothing is done"


def test_installed_again(place: Place) -> None:
    """Until the new hook takes its place, the old one stays."""
    under_git(place, "")
    place.run(HOOK, "--install")
    done = run_changed(place, HOOK, "def fail(*_): raise OSError(28, 'no space')\nos.symlink = fail", ["--install"])
    assert done.returncode == 1 and "no space" in done.stderr
    assert all((place.tree / ".git/hooks" / name).exists() for name in ("pre-commit", "pre-merge-commit"))
    ended("it is installed again", place.run(HOOK, "--install"), 0, "installed")


def test_interrupted(place: Place) -> None:
    """What an interrupted installation has left does not keep another one from its work, and is gone then."""
    under_git(place, "")
    killed = "os.replace = lambda *_: os.kill(os.getpid(), 9)"
    run_changed(place, HOOK, killed, ["--install"])
    hooks = place.tree / ".git/hooks"
    before = {path.name for path in hooks.iterdir() if path.is_symlink()}
    ended("it is installed again", place.run(HOOK, "--install"), 0, *(f"{hooks}/{name}: installed\n" for name in NAMES))
    assert before and {path.name for path in hooks.iterdir() if path.is_symlink()} == {*NAMES}


def test_options_together(place: Place) -> None:
    """Options that do not fit together are refused, and nothing is done."""
    under_git(place, "")
    options = ["--all", "--since=HEAD", "--install", "--uninstall"]
    for words in combinations(options, 2):
        ended(str(words), place.run(HOOK, *words), 2, "not allowed with argument")
    for word in ("--all", "--since=HEAD", "--uninstall", "a.yml", "--"):
        done = place.run(HOOK, "--vault-password-file=/pass", word)
        ended(word, done, 2, "only --install takes passwords")
    assert ".git/hooks/pre-commit" not in place.names(), "nothing is installed"

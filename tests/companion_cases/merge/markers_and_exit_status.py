"""The ends of ansible-vault-merge under git, with the setting that ansible-vault-hook makes.

Whatever keeps the driver from its work, git says that there is a conflict, and both sides are between its markers.
"""

import os

import pytest

from companion_cases import HOOK, MERGE, NOBODY, Place, sealed
from companion_cases.repository import BASE, OURS, THEIRS, fork, under_git
from lib.needs import needs

pytestmark = pytest.mark.usefixtures("git")

# The driver's arguments after those for the password.
VERSIONS = {"base": 2, "ours": 3, "theirs": 4}
# What takes the place of a version: shell text that makes it at this path, outside of the repository.
UNREADABLE = {
    "missing": ":",
    "directory": "mkdir {}",
    "not allowed": "touch {0} && chmod 0 {0}",
    "FIFO": "mkfifo {}",
    "too long": "truncate -s 1G {}",
    "device": "ln -s /dev/zero {}",
    "link out": "ln -s {} out.yml",
}
# What ends the driver, as shell text that runs instead of it, or instead of the program that it starts.
ENDS = {"signal": "kill -9 $$", "a failure of Python": "exit 1", "invalid": "exit 2", "not found": "exit 127"}
LATER_ENDS = {"a signal once both sides are written": "kill -9 $PPID"}


def prepare(place: Place) -> None:
    under_git(place, "a.yml merge=ansible-vault\n")
    fork(place, *({"a.yml": sealed("old", text)} for text in (BASE, OURS, THEIRS)))
    done = place.run(HOOK, "--install", *place.by_file("old"))
    assert done.returncode == 0, done


def replace_driver(place: Place, text: str) -> None:
    (place.tools / MERGE).unlink(missing_ok=True)
    place.script(text, f"tools/{MERGE}")


def check_conflict(place: Place) -> None:
    """Merge, and check that git reports a conflict and that no line of either side is lost."""
    done = place.shell("git merge --no-edit theirs")
    assert done.returncode == 1 and "CONFLICT (content): Merge conflict in a.yml" in done.stdout, done
    assert place.shell("git diff --name-only --diff-filter=U").stdout == "a.yml\n", done
    lines = place.get("a.yml").splitlines()
    marks = [line[:7] for line in lines if line[:7] in (b"<" * 7, b"=" * 7, b">" * 7)]
    assert {*marks} == {b"<" * 7, b"=" * 7, b">" * 7}, (lines, done)
    sides = place.shell("git show HEAD:a.yml theirs:a.yml").stdout.encode().splitlines()
    assert {*sides} <= {*lines}, (lines, done)


@pytest.mark.parametrize("what", UNREADABLE)
def test_unread_version(place: Place, what: str) -> None:
    """git's files stay, but the driver gets another path in place of one of them."""
    prepare(place)
    path = place.path / "unread"
    place.shell(UNREADABLE[what].format(path))
    given = "out.yml" if what == "link out" else str(path)
    user = ""
    if what == "not allowed" and os.geteuid() == 0:
        needs("setpriv")
        user = f"setpriv --reuid={NOBODY} --clear-groups"
    for version, number in VERSIONS.items():
        words = [f"{user} {place.companions}/{MERGE}", *(f'"${each}"' for each in range(1, 6))]
        words[number] = given
        replace_driver(place, f"{' '.join(words)}; status=$?; echo $status > ../status; exit $status")
        check_conflict(place)
        assert place.get("../status") == b"2\n", (version, "it cannot be read")
        place.shell("git merge --abort")


@pytest.mark.parametrize("what", ENDS)
def test_end(place: Place, what: str) -> None:
    """The driver ends before it writes."""
    prepare(place)
    replace_driver(place, ENDS[what])
    check_conflict(place)


# What follows the driver in settings: those of --install, those of earlier versions, and those of the manual page.
EARLIER = '|| { s=$?; [ "$s" -lt 2 ] || [ "$s" -gt 127 ] || git merge-file -q %A %O %B; exit 1; }'
SETTINGS = {"of --install": None, "earlier": EARLIER, "by hand": ""}


@pytest.mark.parametrize("setting", SETTINGS)
def test_settings(place: Place, setting: str) -> None:
    """What is not merged is one conflict of two whole vaults, in which git puts no markers of its own."""
    prepare(place)
    rest = SETTINGS[setting]
    if rest is not None:
        line = f"{MERGE} {'='.join(place.by_file('old'))} %O %A %B %P {rest}"
        place.run("git", "config", "merge.ansible-vault.driver", line)
    place.wrap_tool('[ "$1" = --version ] || exit 4')
    check_conflict(place)
    sides = (sealed("old", OURS), sealed("old", THEIRS))
    assert place.get("a.yml") == b"<<<<<<< ours\n%s=======\n%s>>>>>>> theirs\n" % sides
    if setting != "by hand":
        place.shell("git merge --abort")
        replace_driver(place, f'{place.companions}/{MERGE} "$1" missing "$3" "$4" "$5"')
        check_conflict(place)


@pytest.mark.parametrize("what", LATER_ENDS)
def test_later_end(place: Place, what: str) -> None:
    prepare(place)
    place.wrap_tool(LATER_ENDS[what])
    check_conflict(place)

"""Every command in every state of a repository: a team works at random, and after each of its steps all commands run.

Each answer is one of those that the manual pages name: the status, the form of each line, and the numbers in the last
line. `STEPS` has what the team does, `LEAKS` what it must not do, and `STATES` which status each command then has.
"""

import re
from collections.abc import Callable
from functools import partial
from random import Random
from typing import NamedTuple

import pytest

from companion_cases import AWKWARD, CHECK, FOUND, HOOK, NOT_ENCRYPTED, ROTATE, TEXT, TEXTCONV, Companions, Place
from companion_cases import block, first_line, sealed
from companion_cases.forks import Forks, Run
from companion_cases.repository import under_git

pytestmark = [pytest.mark.usefixtures("git"), pytest.mark.faults]

VAULT = "all/vault.yml"
VALUES = "web.yml"
DOCUMENT = "README.md"
# Versions of a vault and of a value. Each of them is another envelope.
VAULTS = [sealed("old", b"db_password: version %d\n" % number) for number in range(5)]
BLOCKS = [block("old", b"version %d" % number, name="db_password") for number in range(5)]
OTHER = sealed("dev", label="dev")
EXAMPLE = b"```\n$ANSIBLE_VAULT;1.1;AES256\n6162\n```\n"
ATTRIBUTES = "vault.yml diff=ansible-vault\nmarked/* ansible-vault\n"


class Team:
    """Its files, and the random choices of what it does with them."""

    def __init__(self, place: Place, random: Random) -> None:
        self.place, self.random = place, random
        # What has been done, for a message.
        self.done: list[str] = []

    def paths(self) -> list[str]:
        """Return the paths of the files that the team may do something with, of which there is at least one."""
        return [
            name for name in self.place.names() if not name.startswith(".git") and (self.place.tree / name).is_file()
        ]

    def vaults(self) -> list[str]:
        return [name for name in self.paths() if self.place.get(name).startswith(b"$ANSIBLE_VAULT")]

    def commit(self) -> None:
        self.git("add -A")
        self.git("commit -q --allow-empty --no-verify -m step")

    def git(self, line: str) -> int:
        return self.place.run("git", *line.split()).returncode


def change_vault(team: Team) -> None:
    team.place.put(VAULT, team.random.choice(VAULTS))


def change_value(team: Team) -> None:
    team.place.put(VALUES, team.random.choice(BLOCKS) + b"port: %d\n" % team.random.randrange(9))


def add_file(team: Team) -> None:
    """A name is that of a vault or of plaintext, but never of both: plaintext may not take a removed vault's place."""
    number = team.random.randrange(len(AWKWARD))
    team.place.put(AWKWARD[number], [OTHER, b"port: 1\n", b""][number % 3])


def rename_file(team: Team) -> None:
    name = team.random.choice(team.paths())
    folder = team.place.tree / f"moved{team.random.randrange(3)}"
    folder.mkdir(exist_ok=True)
    (team.place.tree / name).rename(folder / name.rpartition("/")[2])


def remove_file(team: Team) -> None:
    (team.place.tree / team.random.choice(team.paths())).unlink()


def empty_vault(team: Team) -> None:
    for name in team.vaults()[:1]:
        team.place.put(name, b"")


def add_link(team: Team) -> None:
    path = team.place.tree / f"link{team.random.randrange(9)}"
    path.unlink(missing_ok=True)
    path.symlink_to(team.random.choice([*team.paths(), "nowhere", path.name, "/etc/hostname"]))


STEPS = [change_vault, change_value, add_file, rename_file, remove_file, empty_vault, add_link]


class Leak(NamedTuple):
    """What a file was, what takes its place, and what the hook says of it."""

    name: str
    before: bytes
    after: bytes
    why: str


LEAKS = [
    Leak("leak/secrets.yml", VAULTS[0], TEXT, "is not encrypted, but was a vault in"),
    Leak("leak.yml", BLOCKS[0], b"db_password: plain\n", "has db_password in plaintext, which was encrypted in"),
    Leak("marked/leak.txt", b"", TEXT, "is not encrypted"),
    Leak("leak.txt", b"", VAULTS[0][:-9], "is a damaged vault"),
    Leak(
        "markers.yml",
        b"",
        b"<<<<<<< a\n%b=======\n%b>>>>>>> b\n" % (BLOCKS[0], BLOCKS[1]),
        "has git's conflict markers",
    ),
]


class State(NamedTuple):
    """The status of the hook for what is staged, of `--since` the commit itself and an earlier one, and of `--all`."""

    staged: int
    since_this: int
    since_earlier: int
    all: int


STATES = {
    "nothing is committed yet": State(staged=0, since_this=1, since_earlier=1, all=1),
    "all is committed": State(staged=0, since_this=0, since_earlier=0, all=0),
    "a leak is staged": State(staged=1, since_this=0, since_earlier=0, all=0),
    "a leak is committed": State(staged=0, since_this=0, since_earlier=1, all=1),
    "a merge has a conflict": State(staged=1, since_this=0, since_earlier=0, all=0),
}


# What the pages name, as patterns of whole lines. Names are printed without line ends.
REFUSED = rf"{HOOK}: (?:[0-9a-f]{{10}}: )?.+ (?:is|has) .+\n  .+\n"
FAILED = rf"{HOOK}: .+\n"
DECRYPTED, CHECKED = r".+: \w+: decrypted by .+", r"(\d+) decrypted, (\d+) failed"
ROTATED = r".+: (?:(\d+) )?would be rotated"
COUNTED = r"(\d+) to be rotated, 0 already under the new password, (\d+) with other labels(?: \(.+\))?, (\d+) failed"
MISSING = f"{ROTATE}: no vault or value has the label default"
SHOWN = rf"(?:{TEXTCONV}: .+: shown as it is: .+\n)?"
# Of a link out of the repository to a file without an envelope. That is no failure of check and rotate.
LEADS_OUT = r".+: .+: a link leads out of .+; name .+ instead"


def is_hook_answer(run: Run, status: int, leak: Leak | None) -> bool:
    """It says nothing, or one line and an advice for each file, or the one line of a failure."""
    if status == 0:
        return (run.status, run.output, run.errors) == (0, "", "")
    form = rf"(?:{REFUSED})+|{FAILED}" if leak is None else rf"(?:{REFUSED})+"
    names = leak is None or f"{leak.name} {leak.why}" in run.errors
    return (run.status, run.output) == (1, "") and names and re.fullmatch(form, run.errors) is not None


def list_faults(run: Run) -> list[str]:
    """List the lines of standard error, without links that lead out."""
    return [line for line in run.errors.splitlines() if not re.fullmatch(LEADS_OUT, line)]


def is_check_answer(run: Run, number: int | None) -> bool:
    """It has a line for each envelope, of which there are so many, and one for each failure, which it counts."""
    *lines, last = run.output.splitlines()
    faults, counts = list_faults(run), re.fullmatch(CHECKED, last)
    if counts is None or not all(re.fullmatch(DECRYPTED, line) for line in lines):
        return False
    is_counted = [int(count) for count in counts.groups()] == [len(lines), len(faults)]
    is_right = number is None or (number, 0) == (len(lines), len(faults))
    has_form = all(line.startswith(f"{CHECK}: ") for line in faults)
    return is_counted and is_right and has_form and run.status == min(1, len(faults))


def is_rotate_answer(run: Run, number: int | None) -> bool:
    """It counts what it names, and fails if it would rotate anything, or found nothing to rotate, which is a failure
    that it counts, too."""
    *lines, last = run.output.splitlines()
    named, counts = [re.fullmatch(ROTATED, line) for line in lines], re.fullmatch(COUNTED, last)
    if counts is None or None in named:
        return False
    rotated, others, failed = map(int, counts.groups())
    faults = list_faults(run)
    missing = sum(line.startswith(MISSING) for line in faults)
    is_counted = (rotated, failed) == (sum(int(each[1] or 1) for each in named if each), len(faults))
    is_right = number is None or (number, missing) == (rotated + others, failed)
    return is_counted and is_right and run.status == 1 and (missing == 1) == (rotated == 0 and failed == missing)


def is_textconv_answer(run: Run, content: bytes) -> bool:
    """A vault is shown in plaintext, and what has no envelope as it is, wherever a link leads."""
    if re.fullmatch(SHOWN, run.errors) is None or run.status != 0:
        return False
    text = TEXTS.get(content, None if b"ANSIBLE_VAULT" in content else NOT_ENCRYPTED + content.decode())
    return text is None or run.output == text


TEXTS = {envelope: f"{first_line()}db_password: version {number}\n" for number, envelope in enumerate(VAULTS)}
TEXTS[OTHER] = first_line("dev") + TEXT.decode()


def count_envelopes(place: Place) -> int:
    """Count those of files that are no documents and no links."""
    texts = {name: text for name, text in place.files().items() if not (place.tree / name).is_symlink()}
    return sum(len(FOUND.findall(text)) for name, text in texts.items() if not name.endswith(".md"))


class Watch(NamedTuple):
    """Runs all commands, and notes each answer that is not allowed."""

    team: Team
    forks: Forks
    runs: list[str]

    def look(self, name: str, leak: Leak | None = None) -> None:
        """Run all commands in a state with this name. They change nothing."""
        place = self.team.place
        before = place.files()
        self.run_hook(name, leak)
        is_open = leak is not None or "conflict" in name
        number = None if is_open else count_envelopes(place)
        old = [*place.by_file("old"), *place.by_id("dev", "dev")]
        self.run(name, [CHECK, *old, "."], partial(is_check_answer, number=number))
        rotate = [ROTATE, "--dry-run", *old, *place.by_file("new", "new-"), "."]
        self.run(name, rotate, partial(is_rotate_answer, number=number))
        for path in self.team.random.sample(sorted(before), min(2, len(before))):
            self.run(name, [TEXTCONV, *old, path], partial(is_textconv_answer, content=before[path]))
        assert place.files() == before, "nothing is changed"

    def run_hook(self, name: str, leak: Leak | None) -> None:
        """Run the hook for what is staged, and for the last commits."""
        state = STATES[name]
        statuses = {"": state.staged, "--all": state.all, "--since HEAD": state.since_this}
        first = self.team.place.run("git", "rev-list", "--max-parents=0", "HEAD").stdout.split()
        for base in ("HEAD~1", *first):
            statuses[f"--since {base}"] = state.since_earlier
        for options, status in statuses.items():
            told = leak if status else None
            self.run(name, [HOOK, *options.split()], partial(is_hook_answer, status=status, leak=told))

    def run(self, name: str, words: list[str], is_allowed: Callable[[Run], bool]) -> None:
        run = self.forks.run(self.team.place, *words)
        self.runs.append(words[0])
        done = f"After {', '.join(self.team.done)}, when {name}, this is no allowed answer of {words}"
        assert is_allowed(run), f"{done}:\nstatus {run.status}\n{run.output}{run.errors}"


def take_step(team: Team) -> None:
    step = team.random.choice(STEPS if team.paths() else [change_vault, change_value, add_file])
    team.done.append(step.__name__)
    step(team)
    team.commit()


def merge_branches(team: Team, watch: Watch) -> None:
    """Each branch takes a step. A merge without a conflict is committed; another one is given up."""
    team.git("checkout -q -b other")
    take_step(team)
    watch.look("all is committed")
    team.git("checkout -q -")
    take_step(team)
    team.done.append("merge")
    has_conflict = team.git("merge -q --no-edit other") != 0
    watch.look("a merge has a conflict" if has_conflict else "all is committed")
    if has_conflict:
        team.git("merge --abort")
    team.git("branch -q -D other")


def leak(team: Team, watch: Watch, way: Leak) -> None:
    team.done.append(f"leak {way.name}")
    if way.before:
        team.place.put(way.name, way.before)
        team.commit()
    team.place.put(way.name, way.after)
    team.git("add -A")
    watch.look("a leak is staged", way)
    team.commit()
    watch.look("a leak is committed", way)


def walk(place: Place, forks: Forks, random: Random) -> int:
    """Return how many commands were run."""
    team = Team(place, random)
    watch = Watch(team, forks, [])
    under_git(place, ATTRIBUTES)
    for name, content in {VAULT: VAULTS[0], VALUES: BLOCKS[0], DOCUMENT: EXAMPLE}.items():
        place.put(name, content)
    team.git("add -A")
    watch.look("nothing is committed yet")
    team.commit()
    versions = random.randrange(5)
    for content in VAULTS[1 : versions + 1] or [VAULTS[0]]:
        place.put(VAULT, content)
        team.commit()
    team.done.append(f"{versions + 1} versions")
    watch.look("all is committed")
    for _ in range(2):
        take_step(team)
        watch.look("all is committed")
    merge_branches(team, watch)
    leak(team, watch, random.choice(LEAKS))
    return len(watch.runs)


# How many walks are made, of which the option --share chooses some.
WALKS, LEAST = 100, 2


@pytest.mark.parametrize("part", range(LEAST))
def test_walks(
    cases: Companions,
    forks: Forks,
    part: int,
    pytestconfig: pytest.Config,
    record_property: Callable[[str, object], None],
) -> None:
    share, seed = int(pytestconfig.getoption("--share")), int(pytestconfig.getoption("--seed"))
    walks = range(part, max(LEAST, WALKS // share), LEAST)
    runs = sum(walk(cases.place(), forks, Random(f"{seed}-{number}")) for number in walks)
    record_property("commands in walks", (runs, runs))

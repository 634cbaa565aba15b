"""Calls of git that fail. A failure is no answer: the hook accepts no plaintext because it could not ask git.

A stand-in for git passes on each call but one, or but those of a kind. That call prints nothing, a part of its answer
or the whole, and then fails or is killed. A run is fine if its result is what it is without a failure (the answer was
not needed), or if it names the failed call and has the status 1. What git prints before it ends with status 0 is
believed.
"""

import os
import re
import shutil
from collections import Counter
from collections.abc import Callable, Iterator
from itertools import product
from random import Random
from typing import NamedTuple

import pytest

from companion_cases import CHECK, EDIT, HOOK, TEXT, Described, Place, block, described, sealed
from companion_cases.forks import Forks
from companion_cases.repository import under_git

pytestmark = [pytest.mark.usefixtures("git"), pytest.mark.faults]

NOTHING = "nothing"
HALF = "half"
ALL = "all"
# The line before each content in the answer of `cat-file --batch`.
BATCH = re.compile(rb"^[0-9a-f]{40} blob \d+\n", re.MULTILINE)
# A call with a status reads its input first.
ENDS = {f"status {status}": f"cat > /dev/null; exit {status}" for status in (1, 128)} | {"a signal": "kill -KILL $$"}


class Way(NamedTuple):
    """What a failing call prints, and how it ends."""

    part: str
    end: str


WAYS = [
    Way(NOTHING, "status 1"),
    Way(NOTHING, "status 128"),
    Way(HALF, "a signal"),
    Way(ALL, "status 1"),
    Way(ALL, "a signal"),
]
# The kind of a call is its command and the first option; calls of a kind are numbered. Without FAILS, git answers, and
# its answers are noted. A call that fails prints so many BYTES of the noted answer.
STAND_IN = """
find_kind() {
    skips=
    while case $skips$1 in -c) skips=yes ;; yes*) skips= ;; -*) ;; *) false ;; esac do shift; done
    kind=$1
    case $2 in -*) kind="$1 $2" ;; esac
}
real_git() { PATH=${PATH#*:} command git "$@"; }
find_kind "$@"
number=1
while read -r each; do [ "$each" != "$kind" ] || number=$((number + 1)); done < "$CALLS/kinds"
echo "$kind" >> "$CALLS/kinds"
answer="$CALLS/$kind $number"
case $FAILS in
    "$kind $number" | "$kind")
        echo "$number" >> "$CALLS/failed"
        head -c "$BYTES" "$answer"
        exec > /dev/null
        eval "$END" ;;
    '')
        case $* in
            *--batch) real_git "$@" | tee "$answer"; exit ;;
        esac
        real_git "$@" > "$answer"
        status=$?
        cat "$answer"
        exit $status ;;
esac
"""

# Files to stage, of which one without content is removed; or shell text to run.
Files = dict[str, bytes | None]
Steps = list[Files | str]

VAULT = sealed("old")
PW = block("old", name="pw")
PLAIN = b"pw: plain\n"
LINES = b"".join(b"line%d: %d\n" % (number, number) for number in range(40))
# Names that begin with m have to be encrypted, and old.yml need not be.
MARKS: Files = {".gitattributes": b"m*.yml diff=ansible-vault\nold.yml -ansible-vault\n"}
# Files, and what takes their place: plaintext in the same file, in a renamed one, in one that is marked, and in one
# that a line of .gitattributes exempts.
ENCRYPTED: Files = {**MARKS, "a.yml": VAULT, "b.yml": PW, "c.yml": LINES + PW, "old.yml": VAULT}
PLAINTEXT: Files = {
    "a.yml": TEXT,
    "b.yml": PLAIN,
    "c.yml": None,
    "d.yml": LINES + PLAIN,
    "old.yml": TEXT,
    "m.yml": TEXT,
}
COMMIT = "git commit -qm change --no-verify"
LEAKS: Steps = [PLAINTEXT]
EXEMPT: Files = {".gitattributes": b"a.yml -ansible-vault\n"}
BRANCHES: Steps = [
    {"a.yml": TEXT, "b.yml": PLAIN},
    COMMIT,
    "git checkout -qb theirs",
    ENCRYPTED,
    COMMIT,
    "git checkout -q -",
]
OLD = "--vault-password-file ~/secrets/old"
MERGE = "git commit -qm ours --allow-empty && git merge -q --no-commit -s ours theirs"
SHALLOW = "git clone -q --depth 1 file://$PWD ../clone && rm -rf .git && mv ../clone/.git ."
CONFLICT: Steps = [
    {"a.yml": sealed("old", b"1\n\n2\n")},
    COMMIT,
    "git checkout -qb theirs",
    {"a.yml": sealed("old", b"1\n\n3\n")},
]
CONFLICT += [COMMIT, "git checkout -q -", {"a.yml": sealed("old", b"4\n\n2\n")}, COMMIT, "! git merge -q theirs"]


class Scenario(NamedTuple):
    """What happens, the line to run then, the status that it has if git does not fail, and the files that it refuses
    then, or other words of its messages."""

    steps: Steps
    line: str
    status: int
    words: str = ""


SCENARIOS = {
    "staged": Scenario([ENCRYPTED, COMMIT, *LEAKS], HOOK, 1, "a.yml b.yml d.yml m.yml"),
    "first commit": Scenario([MARKS, {"m.yml": TEXT}], HOOK, 1, "m.yml"),
    "named file": Scenario([MARKS, {"m.yml": TEXT}, COMMIT], f"{HOOK} m.yml", 1, "m.yml"),
    "merge": Scenario([*BRANCHES, MERGE], HOOK, 1, "a.yml b.yml"),
    "leaks of one commit": Scenario(
        [ENCRYPTED, COMMIT, *LEAKS, COMMIT, ENCRYPTED, COMMIT], f"{HOOK} --since HEAD~2", 1, "a.yml b.yml d.yml m.yml"
    ),
    "a line that comes and goes": Scenario(
        [ENCRYPTED, COMMIT, {**EXEMPT, "a.yml": TEXT}, COMMIT, {**MARKS, "b.yml": PLAIN}, COMMIT],
        f"{HOOK} --since HEAD~2",
        1,
        "b.yml",
    ),
    "leaks of a merge": Scenario([*BRANCHES, MERGE, COMMIT], f"{HOOK} --since HEAD~1", 1, "a.yml b.yml"),
    "leaks of the last commit, and a marked file": Scenario(
        [ENCRYPTED, COMMIT, {"m.yml": TEXT}, COMMIT, *LEAKS, COMMIT], f"{HOOK} --all", 1, "a.yml b.yml d.yml m.yml"
    ),
    "shallow clone": Scenario([ENCRYPTED, COMMIT, *LEAKS, COMMIT, SHALLOW], f"{HOOK} --all", 1, "are missing"),
    "check": Scenario([MARKS, {"m.yml": TEXT}], f"{CHECK} {OLD} .", 1, "m.yml"),
    "edit of a conflict": Scenario(CONFLICT, f"{EDIT} {OLD} a.yml", 0),
    "install": Scenario([], f"{HOOK} --install {OLD}", 0),
}


def stage(place: Place, files: Files) -> None:
    for name, content in files.items():
        if content is None:
            (place.tree / name).unlink(missing_ok=True)
        else:
            place.put(name, content)
    place.shell("git add -A")


def prepare(place: Place, scenario: Scenario) -> None:
    """Make the repository, and put the stand-in before git."""
    place.environment |= {"CALLS": str(place.path), "EDITOR": "true"}
    under_git(place, "")
    for step in scenario.steps:
        if isinstance(step, str):
            assert place.shell(step).returncode == 0, step
        else:
            stage(place, step)
    place.wrap_tool(STAND_IN, "git")
    shutil.copytree(place.tree, place.path / "prepared", symlinks=True)


class Call(NamedTuple):
    kind: str
    # Among those of its kind, from 1.
    number: int
    answer: bytes

    def length(self, part: str) -> int:
        """Return how many bytes this part of the answer has. Of the answers to a batch, half are all but the last
        content."""
        headers = [header.end() for header in BATCH.finditer(self.answer)]
        half = headers[-1] if headers else len(self.answer) // 2
        return {NOTHING: 0, HALF: half, ALL: len(self.answer)}[part]


class Result(NamedTuple):
    """What is left of a run: status, messages, and, if it may change them, the files, and git's settings and hooks."""

    status: int
    output: str
    errors: str
    files: dict[str, Described] = {}
    config: bytes = b""
    hooks: list[str] = []

    def __str__(self) -> str:
        return f"the status {self.status}, {sorted(self.files)}, and the messages\n{self.errors}"


class Attempt(NamedTuple):
    """The result of a run, and whether the call that was to fail was made."""

    result: Result
    has_failed: bool


class Failing(NamedTuple):
    """Runs a line while a call of git fails."""

    place: Place
    forks: Forks
    line: str

    def run(self, failure: "Failure | None" = None) -> Attempt:
        """Run the line in the prepared repository. The call of the failure fails, or all of its kind."""
        for name in ("kinds", "failed"):
            (self.place.path / name).write_text("")
        fails = {}
        if failure:
            call, way = failure.call, failure.way
            name = call.kind if failure.is_of_kind else f"{call.kind} {call.number}"
            fails = {"FAILS": name, "BYTES": str(call.length(way.part)), "END": ENDS[way.end]}
        changes = EDIT in self.line or "--install" in self.line
        if changes:
            shutil.rmtree(self.place.tree)
            shutil.copytree(self.place.path / "prepared", self.place.tree, symlinks=True)
        run = self.forks.run(self.place, *self.line.split(), **fails)
        result = Result(run.status, run.output, run.errors)
        if changes:
            contents = self.place.files().items()
            # A new envelope is another one each time, but has the same text. A conflict is compared as it is.
            files = {name: (text, None) if b"<<<" in text else described(text) for name, text in contents}
            hooks = sorted(os.listdir(self.place.tree / ".git" / "hooks"))
            result = result._replace(files=files, config=self.place.get(".git/config"), hooks=hooks)
        return Attempt(result, has_failed=(self.place.path / "failed").read_text() != "")

    def calls(self) -> list[Call]:
        """Return the calls of the last run, in which none failed."""
        counts, calls = Counter[str](), []
        for kind in (self.place.path / "kinds").read_text().splitlines():
            counts[kind] += 1
            answer = (self.place.path / f"{kind} {counts[kind]}").read_bytes()
            calls.append(Call(kind, counts[kind], answer))
        return calls


def names_call(result: Result, call: Call) -> bool:
    """Return whether a run has failed, and says that this call did."""
    messages = [f"git {call.kind.split()[0]} failed"]
    if call.kind == "rev-parse --verify":
        # It also has the status 1 if there is no such commit.
        messages += ["is not a commit in this clone"]
    if call.kind == "merge-file -p":
        messages += ["git merge-file cannot merge it"]
    return result.status == 1 and any(message in result.errors for message in messages)


class Failure(NamedTuple):
    """A call, or all of its kind, and how it fails."""

    call: Call
    way: Way
    is_of_kind: bool

    def __str__(self) -> str:
        which = "each call" if self.is_of_kind else f"call {self.call.number}"
        return f"{which} of git {self.call.kind} prints {self.way.part} and ends with {self.way.end}"


def choose_failures(calls: list[Call], share: int, random: Random) -> Iterator[Failure]:
    """Yield one in so many failures of these calls, and at least one of each kind and way."""
    every = [*product(calls, WAYS)]
    chosen = set[tuple[str, Way]]()
    for call, way in random.sample(every, len(every)):
        if (call.kind, way) in chosen and random.randrange(share) > 0:
            continue
        chosen.add((call.kind, way))
        yield Failure(call, way, is_of_kind=random.random() < 0.3)


@pytest.mark.parametrize("scenario", SCENARIOS.values(), ids=SCENARIOS)
def test_failures(
    place: Place,
    forks: Forks,
    scenario: Scenario,
    pytestconfig: pytest.Config,
    record_property: Callable[[str, object], None],
) -> None:
    share = int(pytestconfig.getoption("--share"))
    random = Random(int(pytestconfig.getoption("--seed")))
    prepare(place, scenario)
    failing = Failing(place, forks, scenario.line)
    whole = failing.run().result
    missing = [word for word in scenario.words.split(" ") if word not in whole.errors]
    assert whole.status == scenario.status, whole
    assert missing == [], whole
    calls = failing.calls()
    reached = 0
    wrong = []
    for failure in choose_failures(calls, share, random):
        attempt = failing.run(failure)
        if attempt.has_failed:
            reached += 1
        else:
            wrong.append(f"{scenario.line} never comes to where {failure}")
        if attempt.result != whole and not names_call(attempt.result, failure.call):
            wrong.append(f"If {failure}, {scenario.line} has {attempt.result}")
    assert not wrong, "\n".join(wrong)
    record_property("failing calls of git", (reached, len(calls) * len(WAYS)))

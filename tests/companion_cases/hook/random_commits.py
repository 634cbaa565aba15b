"""Random commits of a team. The hook lets pass what teammates do, and names the file in which one of them leaks."""

import subprocess
from collections import Counter
from collections.abc import Iterator
from itertools import islice
from pathlib import Path
from random import Random

from hypothesis import given, settings
from hypothesis import strategies as st

from companion_cases import lines_of
from companion_cases.repository import find_refused_files, make_envelope, stage_alone

# The number of an envelope, or a plaintext, by the name of the file and the keys. A vault has no keys.
Steps = tuple[str, ...]
Contents = dict[Steps, int | str]
# A file that is renamed and changed must not have the length of a vault's text by chance, so it has a long text.
LONG_TEXT = "text" * 12
HEAD: Contents = {("a.yml", "one"): 1, ("a.yml", "m", "three"): LONG_TEXT, ("b.yml", "four"): 4, ("v.yml",): 1}
EXAMPLES = 40
TEXTS = ["{}", '"{}"', "'{{{{ x }}}}{}'", "!vault {}"]
PLAIN = [*TEXTS, "[{}]", "{{x: {}}}"]
TAKEN_AWAY = ["", "~", "''", '"{{ y }}"', '" {{ x }} {{ y }} "', "{}"]


def below(contents: Contents) -> dict[str, Contents]:
    """Return what is below each name or key."""
    found: dict[str, Contents] = {}
    for (first, *rest), content in contents.items():
        found.setdefault(first, {})[(*rest,)] = content
    return found


def write_file(contents: Contents) -> bytes:
    """Return the content of a file: a text, a vault, or YAML with keys."""
    if () not in contents:
        return write_keys(contents, 0) + b"\n"
    content = contents[()]
    return content.encode() if isinstance(content, str) else make_envelope(content)


def write_keys(contents: Contents, depth: int) -> bytes:
    """Return lines of YAML, without a final newline."""
    lines = []
    for key, each in below(contents).items():
        value = b" " + write_value(each[()], depth + 1) if () in each else b"\n" + write_keys(each, depth + 1)
        lines.append(b" " * depth + key.encode() + b":" + value)
    return b"\n".join(lines)


def write_value(content: int | str, depth: int) -> bytes:
    """Return a value as YAML. An envelope is a block or, if its number is a multiple of three, in quotes."""
    if isinstance(content, str):
        return content.encode()
    envelope = make_envelope(content)
    if content % 3 == 0:
        return b'!vault "%s"' % envelope.replace(b"\n", b"\\n")
    return b"!vault |\n" + lines_of(envelope, depth + 2)


class Team:
    """A commit in the making, and the one before it."""

    def __init__(self, random: Random, head: Contents) -> None:
        self.random = random
        self.head = head
        self.files = {**head}

    def number(self) -> int:
        return self.random.randrange(1 << 60)

    def new(self, name: str) -> str:
        return name.format(self.number())

    def tables(self) -> list[str]:
        """Return the names of the files with keys."""
        return [*dict.fromkeys(name for name, *keys in self.files if keys)]

    def envelopes(self, *lengths: int) -> list[Steps]:
        """Return the paths of this length to envelopes."""
        return [path for path, content in self.files.items() if len(path) in lengths and isinstance(content, int)]

    def remove(self, *start: str) -> None:
        self.files = {path: content for path, content in self.files.items() if path[: len(start)] != start}

    def add(self) -> None:
        for name in self.tables():
            self.files |= {(name, self.new("k{}")): self.number(), (name, self.new("k{}")): self.new("text{}")}
            self.files[name, "m", self.new("k{}")] = self.number()
        contents: list[int | str] = ["", self.number()]
        self.files[(self.new("f{}.yml"),)] = self.random.choice(contents)

    def encrypt_again(self) -> None:
        self.files |= {path: self.number() for path in self.envelopes(1, 2, 3)}

    def take_away(self) -> None:
        self.files |= {path: self.random.choice(TAKEN_AWAY) for path in self.envelopes(2, 3)[:2]}

    def change_text(self) -> None:
        texts = [path for path, content in self.files.items() if str(content).startswith("text")]
        self.files |= {path: self.new("text{}") for path in texts[:2]}

    def move(self) -> None:
        for path in self.envelopes(2)[:1]:
            other = self.random.choice(self.tables())
            self.files[other, path[1]] = self.files.pop(path)

    def rename(self) -> None:
        old, new = self.random.choice([*below(self.files)]), self.new("r{}.yml")
        self.files = {(new if name == old else name, *keys): each for (name, *keys), each in self.files.items()}

    def encrypt_file(self) -> None:
        for name in self.tables()[:1]:
            self.remove(name)
            self.files[(name,)] = self.number()

    def drop(self) -> None:
        self.remove(self.random.choice([*below(self.files)]))
        for path in self.envelopes(2, 3)[:1]:
            del self.files[path]

    def leak(self, way: str) -> Iterator[str]:
        """Do what nobody may do. Yield the file that is to be refused, if there is a place for it."""
        paths = [path for path in self.envelopes(*LEAKS[way]) if isinstance(self.head.get(path), int)]
        for name, *keys in self.random.sample(paths, len(paths)):
            places = [name]
            plain = self.random.choice(PLAIN)
            stem = name.removesuffix(".yml")
            if way == "above":
                keys, plain = keys[:1], self.random.choice(["{}", "[{}]"])
            if way != "value":
                self.remove(name, *keys)
            if way == "elsewhere":
                places, plain = [self.new("f{}.yml")], self.random.choice(TEXTS)
            if way == "vault":
                # In its own file, or in one that Ansible reads in its place.
                keys, places = ["k"], [name, f"{stem}.json"]
            if way == "vault, unchanged":
                # The envelopes have 32 bytes, and so has this text with its padding.
                keys, plain = ["k"], "{}"
                places = [f"{stem}.txt", f"{name}.old", f"x/y/{name.upper()}", f"{stem}/x.yml", f"{stem}/main.yml"]
            place = self.random.choice(places)
            self.files[place, *keys] = plain.format(self.new("text{}"))
            yield place


CHANGES = [Team.add, Team.encrypt_again, Team.take_away, Team.change_text, Team.move, Team.rename, Team.encrypt_file]
# Where a value or a vault was, above the value, or at its key in another file; and how long the path to it is.
LEAKS = {"value": (2, 3), "above": (3,), "elsewhere": (2, 3), "vault": (1,), "vault, unchanged": (1,)}


def find_refused(folder: Path, files: Contents) -> set[str]:
    """Stage these files alone, and return those that the hook refuses."""
    stage_alone(folder, {name: write_file(contents) for name, contents in below(files).items()})
    return find_refused_files()


def test_commits(own_repository: Path) -> None:
    counts: Counter[str] = Counter()

    @settings(max_examples=EXAMPLES, deadline=None, database=None)
    @given(st.integers(0, 1 << 64).map(Random))
    def commits(random: Random) -> None:
        head = HEAD | {("a.yml", "m", "two"): random.choice([1, 4, 9]), ("w.yml",): 2}
        find_refused(own_repository, head)
        for _ in range(5):
            subprocess.run(["git", "commit", "-qm", "one", "--allow-empty", "--no-verify"], check=True)
            team = Team(random, head)
            for _ in range(random.randrange(4)):
                random.choice([*CHANGES, Team.drop] if team.files else [Team.add])(team)
            assert find_refused(own_repository, team.files) == set(), "nothing is leaked"
            counts["passes"] += 1
            head = {**team.files}
            leaks = ((way, name) for way in random.sample([*LEAKS], len(LEAKS)) for name in team.leak(way))
            for way, name in islice(leaks, 1):
                refused = find_refused(own_repository, team.files)
                assert refused == {name}, way
                counts[way] += 1
            find_refused(own_repository, head)

    commits()
    assert counts["passes"] >= 100 and all(counts[way] >= 5 for way in LEAKS), counts

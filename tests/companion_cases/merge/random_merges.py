"""Random merges of YAML, without a process for each envelope.

There are only a few texts, so many values are equal, and several passwords with the same label. The result must be
git's merge of labels, passwords and plaintexts, in each style of conflicts and with each kind of line end. Nothing is
torn, lost, in plaintext, or under another's password.
"""

import itertools
import re
import threading
from collections import Counter
from collections.abc import Callable
from pathlib import Path
from typing import NamedTuple

import hypothesis
import pytest
from hypothesis import strategies as st

from ansible_vault_companions.envelopes.header import MAGIC
from ansible_vault_companions.merging.file_merge import MergedFile, merge_file
from ansible_vault_companions.merging.line_merge import Versions
from ansible_vault_companions.passwords.labels import Credential, Policy
from ansible_vault_companions.passwords.password import Password
from ansible_vault_companions.passwords.sources import parse_vault_id
from ansible_vault_companions.tool import REMEMBERED_BYTES, Decryption, NotDecrypted, Tool
from companion_cases import PASSWORDS, decrypted
from companion_cases.repository import SALTS, by_git, repository
from lib.needs import needs, needs_pyyaml
from model.vaults import seal

# The label of each named secret. Two labels have an old secret and a new one. One secret is not named.
LABELS = {"dev": "dev", "prod": "prod", "prod2": "prod", "old": "default", "new": "default"}
SECRETS = {name: Password(parse_vault_id(f"{label}@{name}"), b"", -1) for name, label in LABELS.items()}
POLICY = Policy(requires_match=False, any_label=False, usual_label=None)
UNNAMED = "dev2"
TEXTS = [b"clear x", b"clear y\n", b"two\nclear lines\n"]
INDENTATIONS = [4, 10, 10]
ITEM = ""
BLOCK = re.compile(rb"(?m)^((?:\w+:|  -) )!vault \|\r?\n((?: +\S+(?:\r?\n|\Z))+)")
# The line below a value in a plaintext, which separates it from the next.
BELOW = re.compile(rb"(?m)^# \w*\r?\n|\r?\n# \w*\Z")
STYLES, ENDS = ["merge", "diff3", "zdiff3"], [b"\n", b"\r\n"]
EXAMPLES = 900
# The least number of merges of each kind, and of conflicts in each style.
LEAST = {"merged": 100, "under a new secret": 4, **dict.fromkeys(STYLES, 6)}


class Value(NamedTuple):
    """A value that is a vault. Without a key, it is an item of the list."""

    key: str
    text: bytes
    label: str
    password: str
    salt: int
    indentation: int

    def envelope(self) -> bytes:
        return seal(PASSWORDS[self.password], self.text, self.label.encode(), SALTS[self.salt])

    def head(self) -> bytes:
        return f"{self.key}: ".encode() if self.key else b"  - "

    def block(self) -> bytes:
        lines = self.envelope().splitlines(keepends=True)
        return self.head() + b"!vault |\n" + b"".join(b" " * self.indentation + line for line in lines)

    def elsewhere(self) -> "Value":
        return self._replace(key="", indentation=0)

    def is_mislabelled(self) -> bool:
        return (self.label or "default") != LABELS.get(self.password, self.label)


def common(base: set[str | None], ours: set[str | None], theirs: set[str | None]) -> str | None:
    """Return the one password of both sides, or the one that a side alone changed it to; None if that is unclear."""
    if len(ours) != 1 or len(theirs) != 1 or None in ours | theirs:
        return None
    if theirs in (base, ours):
        return next(iter(ours))
    if ours == base:
        return next(iter(theirs))
    return None


class Merge(NamedTuple):
    """Base, ours and theirs, the end of each line, and which versions end their last lines."""

    versions: list[list[Value]]
    end: bytes
    are_ended: list[bool]

    def written(self, shown: Callable[[Value], bytes]) -> list[bytes]:
        """Return the versions as YAML, with these lines in place of the values. Without any, a file is empty."""
        contents = []
        for values, is_ended in zip(self.versions, self.are_ended):
            keyed = [shown(value) for value in values if value.key != ITEM]
            items = [shown(value) for value in values if value.key == ITEM]
            content = b"".join([b"start: 1\n", *keyed, b"list:\n", *items]) if values else b""
            if not is_ended:
                content = content.removesuffix(b"\n")
            contents.append(content.replace(b"\n", self.end))
        return contents

    def is_opened(self, value: Value) -> bool:
        """Return whether a secret opens it, and not all versions have it."""
        if value.password == UNNAMED or value.is_mislabelled():
            return False
        is_everywhere = all(value.elsewhere() in map(Value.elsewhere, values) for values in self.versions)
        return not is_everywhere

    def passwords_of(self, label: str, values: list[Value]) -> set[str | None]:
        """Return the passwords of the values of a version with a label, with None for those that are not opened."""
        of_label = [value for value in values if value.label == label]
        return {value.password if self.is_opened(value) else None for value in of_label}

    def common(self, label: str) -> str | None:
        """Return the password of all values with a label; None if each keeps its own."""
        base, ours, theirs = (self.passwords_of(label, values) for values in self.versions)
        return common(base, ours, theirs)

    def known_by(self, value: Value, is_result: bool = False) -> bytes:
        """Return what stays the same if nothing is changed: label, text and the password of the result. Of an envelope
        that is not opened, that is all."""
        own, salt = value.password, str(value.salt)
        if self.is_opened(value):
            salt = ""
            if not is_result:
                own = self.common(value.label) or own
        return f"{value.label or 'default'} {own} {salt} {value.indentation} {value.text!r}".encode()

    def plain(self, value: Value) -> bytes:
        """Return its plaintext, with a line that separates it from the next."""
        return b"%s%s\n# %s\n" % (value.head(), self.known_by(value), value.key.encode())


class Model(Tool):
    """Replaces the program by the model of the tests."""

    def __init__(self) -> None:
        self.salts = itertools.cycle(range(len(SALTS)))
        # The new values, by their envelopes, and how many there are of each text and key.
        self.made: dict[bytes, Value] = {}
        self.counts: Counter[tuple[bytes, Credential]] = Counter()
        # As in the program's own.
        self.lock, self.results, self.room = threading.Lock(), {}, REMEMBERED_BYTES

    def view(self, envelope: bytes, secret: Password) -> bytes:
        text = decrypted(secret.source.place, envelope)
        if text is None:
            raise NotDecrypted("no secret decrypts this vault")
        return text

    def opened(self, envelope: bytes) -> Decryption:
        return self.decrypt(envelope, [*SECRETS.values()], POLICY)

    def encrypt(self, plaintext: bytes, key: Credential) -> bytes:
        label = "" if key.label == "default" else key.label
        value = Value("", plaintext, label, key.password.source.place, next(self.salts), 0)
        self.made[value.envelope()] = value
        self.counts[plaintext, key] += 1
        return value.envelope()

    def merged(self, contents: list[bytes]) -> MergedFile:
        base, ours, theirs = contents
        return merge_file(self, self.opened, Versions(ours, base, theirs), None)


@st.composite
def random_value(draw: st.DrawFn, key: str) -> Value:
    password = draw(st.sampled_from(["dev", "prod", "prod", "prod", "prod2", "old", "old", "new", UNNAMED]))
    own = LABELS.get(password, "dev")
    label = draw(st.sampled_from([own, own, own, own, ""])) if own != "default" else ""
    text, salt = draw(st.sampled_from(TEXTS)), draw(st.sampled_from(range(len(SALTS))))
    return Value(key, text, label, password, salt, draw(st.sampled_from(INDENTATIONS)))


def rekeyed(value: Value) -> Value:
    """Return it under the other secret with the same label, if there is one."""
    others = {"prod": "prod2", "prod2": "prod", "old": "new", "new": "old"}
    return value._replace(password=others.get(value.password, value.password))


def changes(value: Value, new: Value) -> list[list[Value]]:
    """Return what may replace a value. Most often, it stays."""
    anew = value._replace(salt=(value.salt + 1) % len(SALTS))
    other_text = anew._replace(text=new.text)
    often = [value, value, value, other_text, other_text, rekeyed(value), rekeyed(value)]
    seldom = [anew, value._replace(indentation=new.indentation), value._replace(label="")]
    # A value that is added has a key of its own, unless it is an item.
    ending = new.text.split()[-1][:1].decode()
    key = f"{value.key}{ending}" if value.key != ITEM else ITEM
    added = new._replace(key=key, text=value.text)
    removed: list[Value] = []
    return [*([each] for each in often + seldom), removed, [added, value]]


@st.composite
def random_merge(draw: st.DrawFn) -> Merge:
    keys = ["a", "b", "c", ITEM, ITEM, ITEM][draw(st.integers(0, 3)) :][: draw(st.integers(1, 6))]
    base = [draw(random_value(key)) for key in keys]
    if draw(st.booleans()):
        # Make the items of the list equal. Their envelopes may differ.
        base = [value if value.key else base[keys.index(ITEM)]._replace(salt=value.salt) for value in base]
    if draw(st.booleans()):
        # One password for each label, which a side may rotate as a whole.
        older = {"prod2": "prod", "new": "old"}
        base = [value._replace(password=older.get(value.password, value.password)) for value in base]
    sides: list[list[Value]] = [[], []]
    for side, value in itertools.product(sides, base):
        side.extend(draw(st.sampled_from(changes(value, draw(random_value(ITEM))))))
    rotated = draw(st.sampled_from([None, None, *sides]))
    if rotated is not None:
        rotated[:] = map(rekeyed, rotated)
    are_ended = [draw(st.sampled_from([True, True, False])) for _ in range(3)]
    return Merge([base if draw(st.integers(0, 9)) else [], *sides], draw(st.sampled_from(ENDS)), are_ended)


def end_of(line: bytes) -> bytes:
    return line[len(line.rstrip()) :]


def describe_blocks(merge: Merge, result: MergedFile, known: dict[bytes, Value]) -> bytes:
    """Return the result with what each block is known by in its place. Each is one of these values."""

    def describe(match: re.Match[bytes]) -> bytes:
        lines = match[2].splitlines(keepends=True)
        envelope = b"".join(line.strip() + b"\n" for line in lines)
        value = known[envelope]._replace(indentation=len(lines[0]) - len(lines[0].lstrip()))
        return match[1] + merge.known_by(value, is_result=not result.why) + end_of(lines[-1])

    assert len(BLOCK.findall(result.content)) == result.content.count(MAGIC), "all are whole"
    return BLOCK.sub(describe, result.content)


def check_encryptions(merge: Merge, tool: Model) -> None:
    """Check that no more envelopes are made than a side has with this text and label: copies stay copies."""
    _, *sides = merge.versions
    for (text, key), count in tool.counts.items():
        label = "" if key.label == "default" else key.label
        envelopes = ({each.envelope() for each in side if (each.text, each.label) == (text, label)} for side in sides)
        assert count <= max(map(len, envelopes)), (text, key.label)


def check_merge(folder: Path, merge: Merge) -> list[str]:
    """Check a merge, and return of which kinds it was."""
    import yaml

    tool = Model()
    result = tool.merged(merge.written(Value.block))
    known = {value.envelope(): value for values in merge.versions for value in values} | tool.made
    text, count = by_git(folder, merge.written(merge.plain))
    assert describe_blocks(merge, result, known) == BELOW.sub(b"", text), "the merge is git's"
    assert bool(result.why) == (count > 0), f"{count} conflicts by git: {result.why}"
    check_encryptions(merge, tool)
    assert b"clear" not in result.content, "nothing is in plaintext"
    if not result.why:
        yaml.load(result.content, Loader=yaml.BaseLoader)
    return [folder.name if result.why else "merged", *(["under a new secret"] if tool.made else [])]


def test_of_values(request: pytest.FixtureRequest, tmp_path: Path, monkeypatch: pytest.MonkeyPatch) -> None:
    needs("git")
    needs_pyyaml()
    counts: Counter[str] = Counter()
    repositories = [repository(tmp_path / style, style) for style in STYLES]

    @hypothesis.seed(request.config.getoption("--seed"))
    @hypothesis.settings(
        max_examples=EXAMPLES, deadline=None, database=None, suppress_health_check=list(hypothesis.HealthCheck)
    )
    @hypothesis.given(random_merge(), st.sampled_from(repositories))
    def check(merge: Merge, folder: Path) -> None:
        monkeypatch.chdir(folder)
        counts.update(check_merge(folder, merge))

    check()
    too_few = {kind: counts[kind] for kind, least in LEAST.items() if counts[kind] < least}
    assert too_few == {}, "merges of these kinds"

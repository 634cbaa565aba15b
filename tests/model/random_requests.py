"""Random requests: the words of a command line, the files that exist, and the standard input."""

from collections.abc import Iterator
from dataclasses import dataclass
from pathlib import Path
from random import Random
from typing import NamedTuple

from model import random_envelopes
from model.formats import Secret
from model.options import COMMON, FLAGS, OPTIONS, is_option
from model.vaults import ENVELOPE

# By the names of their files, some of which need care in a shell or on a terminal.
PASSWORDS = {
    "right": b"right\n",
    "two words": b" two words \r\n",
    "line\nend": b"abc\x00",
    "a;b@c": b"\xff\xfe\x80",
    "größe": "\npäß\nwort\t".encode(),
    "no white space": b"\x1cpw\x1f\xc2\x85\n",
    "\x1b]0;title\x07": b"k" * 64 + b"\n",
    "longest": b"k" * 4_096,
}
BAD_PASSWORDS = {
    "blank": b"\t\n\x0b\x0c\r ",
    "script": b"#!",
    "vault": ENVELOPE,
    "start of a vault": b"$ANSIBLE_VAULT",
    "too long": b"k" * 4_097,
    "long and blank": b"pw".ljust(4_097, b"\n"),
    "long script": b"#!".ljust(5_000, b"k"),
}
SALTS = {"salt of 32": b"0123456789abcdef" * 2, "salt of 40": bytes(range(40))}
SHORT_SALTS = {"salt of 31": bytes(31)}
FOLDER, OLD = "folder", "old"
FILES = PASSWORDS | BAD_PASSWORDS | SALTS | SHORT_SALTS | {OLD: b"what stood there before\n" * 40}
NO_FILES = ["missing", "", "right/below", "missing/x", FOLDER]
NO_PASSWORDS = [*BAD_PASSWORDS, *NO_FILES, "-", "prompt", "/dev/zero"]
INPUTS = [*["input"] * 80, *["-"] * 10, *NO_FILES]
OUTPUTS = ["-", "new", "new", OLD, f"{FOLDER}/new", "input"]
BAD_OUTPUTS = [FOLDER, "missing/new", "", "/dev/full", f"{OLD}/new"]
LABELS = ["default", "dev", "prod", "Prod", "a b", "~!#$%&'\"\\", "a" * 128]
BAD_LABELS = ["a;b", " a", "a ", "a\tb", "dév", "a" * 129, " ", "a\x7f"]
NAMES = ["k", "", "my secret", "näme", "x" * 300, "-n", "a: b"]
BAD_NAMES = ["tab\there", "\n", "del\x7f", "\x1f"]
STRINGS = ["secret", "", "-", "ünï→\n", "$ANSIBLE_VAULT", "$ANSIBLE_VAUL", "a" * 16, "-x", "s" * 5_000, "line\n" * 30]
SALT_TEXTS = ["abc", "a", "a" * 64, "é" * 32, " ", "-x"]
BAD_SALT_TEXTS = ["", "a" * 65, "é" * 33]
# How many secrets a command line has: the more often a number is here, the likelier it is.
SECRET_COUNTS = [0] * 3 + [1] * 12 + [2] * 4 + [3, 4] + [16, 17]
# Words that most command lines may not contain.
WRONG = [["--loud"], ["x", "y"], ["--vault-id"], ["--vault-id", "--salt"], ["-x"]]
WRONG += [[option, "x"] for option in sorted(set().union(*OPTIONS.values()))]


@dataclass
class Case:
    """A request; `files` maps directories to None."""

    words: list[str]
    files: dict[str, bytes | None]
    stdin: bytes

    def lay_out(self, folder: Path) -> None:
        for path, content in self.files.items():
            if content is None:
                (folder / path).mkdir()
            else:
                (folder / path).write_bytes(content)


class Option(NamedTuple):
    name: str
    value: str


class Maker:
    """Makes one request; every choice comes from `random`."""

    def __init__(self, random: Random) -> None:
        self.random = random
        self.command = random.choice([*OPTIONS])
        self.held: list[Secret] = []

    def likely(self, chance: float) -> bool:
        return self.random.random() < chance

    def mostly(self, good: list[str], bad: list[str], chance: float = 0.9) -> str:
        return self.random.choice(good if self.likely(chance) else bad)

    def secret(self, kind: str = "") -> Option:
        """Return an option, and note its label and password, as if it were valid."""
        path = self.mostly([*PASSWORDS], NO_PASSWORDS, 0.93)
        label = "default"
        option = Option(f"--{kind}vault-password-file", path)
        if self.likely(0.7):
            label = self.mostly(LABELS, BAD_LABELS, 0.98)
            value = f"{label}@{path}"
            if self.likely(0.1) and "@" not in path:
                label = "default"
                value = self.random.choice([path, f"@{path}"])
            option = Option(f"--{kind}vault-id", value)
        self.held.append(Secret(label, PASSWORDS.get(path, b"right").strip()))
        return option

    def others(self, has_input: bool) -> Iterator[Option]:
        """Yield options, some of which the command does not have."""
        if self.likely(0.2 if len(self.held) == 1 else 0.85):
            held_labels = [secret.label for secret in self.held]
            yield Option("--encrypt-vault-id", self.mostly(held_labels * 3 + LABELS, BAD_LABELS, 0.98))
        if self.likely(0.3):
            yield Option("--require-id-match", "")
        for option in ("--name", "--stdin-name"):
            if self.likely(0.35):
                yield Option(option, self.mostly(NAMES, BAD_NAMES))
        for _ in range(self.random.choice([1] * 30 + [0, 2])):
            yield self.secret("new-")
        has_salt_text = self.likely(0.45)
        if has_salt_text:
            yield Option("--salt", self.mostly(SALT_TEXTS, BAD_SALT_TEXTS))
        if self.likely(0.06 if has_salt_text else 0.5):
            yield Option("--salt-file", self.mostly([*SALTS, "/dev/zero"], [*SHORT_SALTS, *NO_FILES], 0.75))
        if self.likely(0.95 if has_input else 0.3):
            yield Option("--output", self.mostly(OUTPUTS, BAD_OUTPUTS))

    def content(self) -> bytes:
        """Return what to encrypt, or an envelope that a secret of this request mostly decrypts."""
        if self.command.startswith("encrypt"):
            return random_envelopes.plaintext(self.random)
        label, password = self.random.choice(self.held or [Secret("default", b"right")])
        if self.likely(0.15):
            password = self.random.choice([*PASSWORDS.values()]).strip()
        if self.likely(0.3):
            label = self.random.choice(LABELS)
        spelled_label = "" if label == "default" or label in BAD_LABELS else label
        return random_envelopes.envelope(self.random, password, spelled_label.encode())

    def spelled(self, option: Option) -> list[str]:
        """Return the words of an option: one or two."""
        name, value = option
        if name in FLAGS:
            return [name]
        is_joined = self.likely(0.3) or is_option(value)
        if name == "--name" and self.likely(0.5):
            return [f"-n{value}"] if is_joined and value else ["-n", value]
        return [f"{name}={value}"] if is_joined else [name, value]

    def words(self, options: list[Option], positional: str | None) -> list[str]:
        """Return a command line with those of the options that the command has, in any order."""
        known = COMMON | OPTIONS[self.command]
        groups = [self.spelled(option) for option in options if option.name in known]
        if self.likely(0.03):
            groups.append(self.random.choice([*groups, *WRONG]))
        last: list[str] = []
        if positional is not None and (self.likely(0.2) or is_option(positional)):
            last = ["--", positional]
        elif positional is not None:
            groups.append([positional])
        self.random.shuffle(groups)
        return [self.command, *(word for group in groups for word in group), *last]

    def case(self) -> Case:
        options = [self.secret() for _ in range(self.random.choice(SECRET_COUNTS))]
        content = self.content()
        is_string = self.command == "encrypt_string"
        positional = self.random.choice(STRINGS if is_string else INPUTS) if self.likely(0.6) else None
        is_stdin_read = positional in (None, "-")
        options += self.others(has_input=not is_stdin_read and not is_string)
        words = self.words(options, positional)
        # Only files that a word may name, since more take longer.
        line = " ".join(words)
        files = {name: text for name, text in {**FILES, "input": content}.items() if name in line}
        return Case(words, {**files, FOLDER: None}, content if is_stdin_read else b"not asked")


def make(seed: str) -> Case:
    return Maker(Random(seed)).case()

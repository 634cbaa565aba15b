"""Turn the words of a command line into a request, or raise the first fault.

These are the steps 3 and 4 of "A run, in order" in docs/verification-reference.md.
"""

from collections.abc import Iterator
from typing import NamedTuple

from model.faults import Fault, refuse_if
from model.formats import DEFAULT_LABEL, SALT_TEXT_LIMIT, SECRETS_LIMIT, is_label, split_vault_id

COMMON = {"--vault-id", "--vault-password-file"}
SALTS = {"--salt-file", "--salt"}
# The options of each command, in addition to the common ones.
OPTIONS = {
    "encrypt": {"--encrypt-vault-id", "--output"} | SALTS,
    "decrypt": {"--output", "--require-id-match"},
    "view": {"--require-id-match"},
    "rekey": {"--new-vault-id", "--new-vault-password-file", "--output", "--require-id-match"} | SALTS,
    "encrypt_string": {"--encrypt-vault-id", "--output", "--name", "--stdin-name"} | SALTS,
}
FLAGS = {"--require-id-match"}
SEALING = {"encrypt", "rekey", "encrypt_string"}
SHORT = {"-n": "--name"}
SALT_FILE = "/dev/urandom"


class NotParsed(Exception):
    """The command line is invalid: the program prints a text on standard error, and its status is 2."""


class SecretFile(NamedTuple):
    label: str
    path: str


class Request(NamedTuple):
    """A valid request. If FILE or STRING is None, standard input is read; an output that is None is standard output."""

    command: str
    secrets: list[SecretFile]
    new_secrets: list[SecretFile]
    choice: str | None
    name: str
    positional: str | None
    salt_text: str | None
    salt_path: str | None
    label_required: bool
    output: str | None


# 3. Parsing


def reject_if(condition: bool) -> None:
    if condition:
        raise NotParsed


def is_option(word: str) -> bool:
    return word.startswith("-") and word != "-"


def split_word(word: str) -> tuple[str, str | None]:
    """Split a word into an option and its value, which is None if the word contains none."""
    if word.startswith("--"):
        option, equals, value = word.partition("=")
        return option, value if equals else None
    option, rest = word[:2], word[2:]
    return SHORT.get(option, option), rest.removeprefix("=") if rest else None


def value_of(option: str, joined: str | None, rest: Iterator[str]) -> str:
    """Return the value in the same word or in the next one. A flag has none."""
    if option in FLAGS:
        reject_if(joined is not None)
        return ""
    if joined is not None:
        return joined
    following = next(rest, None)
    if following is None or is_option(following):
        raise NotParsed
    return following


def parse(words: list[str]) -> tuple[dict[str, list[str]], str | None]:
    """Return the values of each option, and the argument, from the words after the program's name."""
    reject_if(not words or words[0] not in OPTIONS)
    known = COMMON | OPTIONS[words[0]]
    values: dict[str, list[str]] = {}
    arguments: list[str] = []
    rest = iter(words[1:])
    for word in rest:
        if word == "--":
            arguments.extend(rest)
        elif is_option(word):
            option, joined = split_word(word)
            reject_if(option not in known)
            reject_if(option in values and option not in COMMON)
            values.setdefault(option, []).append(value_of(option, joined, rest))
        else:
            arguments.append(word)
    reject_if(len(arguments) > 1)
    if arguments in ([], ["-"]):
        return values, None
    return values, arguments[0]


# 4. Options


def secret_files(ids: list[str], paths: list[str]) -> list[SecretFile]:
    named = [SecretFile(*split_vault_id(text)) for text in ids]
    return named + [SecretFile(DEFAULT_LABEL, path) for path in paths]


def has_control_byte(text: str) -> bool:
    return any(character < " " or character == "\x7f" for character in text)


def request_of(words: list[str]) -> Request:
    values, positional = parse(words)
    command = words[0]
    # What may be given once.
    single = {option: given[0] for option, given in values.items() if option not in COMMON}
    # The number of passwords.
    ids, paths = values.get("--vault-id", []), values.get("--vault-password-file", [])
    refuse_if(len(ids) + len(paths) > SECRETS_LIMIT, Fault.TOO_MANY_SECRETS)
    # The label and the source of each `--vault-id`.
    secrets = secret_files(ids, paths)
    # `--encrypt-vault-id`.
    choice = single.get("--encrypt-vault-id")
    refuse_if(choice is not None and not is_label(choice), Fault.BAD_LABEL)
    # The new password.
    new_ids, new_paths = values.get("--new-vault-id", []), values.get("--new-vault-password-file", [])
    refuse_if(command == "rekey" and len(new_ids) + len(new_paths) != 1, Fault.NEED_NEW_SECRET)
    new_secrets = secret_files(new_ids, new_paths)
    # The name option.
    misplaced = "--name" if positional is None else "--stdin-name"
    refuse_if(misplaced in single, Fault.NAME_MISMATCH)
    name = single.get("--name") or single.get("--stdin-name") or ""
    refuse_if(has_control_byte(name), Fault.BAD_NAME)
    # FILE without `--output`.
    writes_file = command in ("encrypt", "decrypt", "rekey")
    output = single.get("--output")
    refuse_if(writes_file and positional is not None and output is None, Fault.OUTPUT_NEEDED)
    # The salt options.
    salt_text, salt_path = single.get("--salt"), single.get("--salt-file")
    refuse_if(salt_text is not None and salt_path is not None, Fault.SALT_CHOICE)
    refuse_if(salt_text is not None and not 1 <= len(salt_text.encode()) <= SALT_TEXT_LIMIT, Fault.BAD_SALT)
    if salt_text is None and salt_path is None and command in SEALING:
        salt_path = SALT_FILE
    return Request(
        command=command,
        secrets=secrets,
        new_secrets=new_secrets,
        choice=choice,
        name=name,
        positional=positional,
        salt_text=salt_text,
        salt_path=salt_path,
        label_required="--require-id-match" in single,
        output=None if output == "-" else output,
    )

"""Labels that anybody may have changed: with several passwords, each encrypts only what has its own label."""

import re
from collections.abc import Collection
from itertools import product
from typing import NamedTuple

import pytest

from companion_cases import CHANGE, CHANGED, CHECK, CONFLICT, EDIT, MERGE, ROTATE, TEXT, WITH, Done, Place, block
from companion_cases import decrypted, edit, ended, envelope_of, sealed, silent, summary, texts, versions
from model.vaults import yaml_block

DEFAULT = "default"


class Labelled(NamedTuple):
    """A password by its name, and a label, which is empty if none is given."""

    label: str
    password: str

    def needed_label(self) -> str:
        return self.label or DEFAULT


class Passwords(NamedTuple):
    options: list[Labelled]
    settings: list[Labelled] = []

    def every(self) -> list[Labelled]:
        return [*self.options, *self.settings]


OF_DEV, OF_PROD = Labelled("dev", "dev"), Labelled("prod", "prod")
PASSWORD_SETS = {
    "a single one": Passwords([Labelled("", "old")]),
    "two labels": Passwords([OF_DEV, OF_PROD]),
    "one without a label": Passwords([OF_DEV, Labelled("", "prod")]),
    "two of one label": Passwords([OF_DEV, Labelled("dev", "prod")]),
    "one under two labels": Passwords([OF_DEV, Labelled("prod", "dev")]),
    "one of the settings": Passwords([OF_DEV], settings=[OF_PROD]),
    "one of the settings that is missing": Passwords([OF_PROD], settings=[Labelled("dev", "missing")]),
}
# The label and the password of the vault in each file.
VAULTS = {
    f"{label}-{password}.yml": Labelled(label, password)
    for label, password in product(["", DEFAULT, "dev", "prod"], ["old", "dev", "prod"])
}
# The new passwords of labels.
NEW = {DEFAULT: "new", "dev": "dev2", "prod": "prod2"}
NEW_LINE = b"$ANSIBLE_VAULT;1.2;AES256;prod"
LATE = (
    "its label is default, that of every vault without one, but prod@{}, a password with the label prod, decrypts it; "
    "unless somebody changed the label or copied the text here, give it the label prod with "
    "`ansible-vault-rotate --any-label`, or accept it with --any-label\n"
)
# Matches what is said of a vault whose label is that of another password: its label, and the one to give.
TOLD = re.compile(
    r"its label is ([^,]+), .*but \S+, a password with the label \S+, decrypts it; .* give it the label (\S+) "
)
# What becomes of a vault.
ENCRYPTED = "encrypted again"
MISLABELLED = "refused for its label"
CLOSED = "not decrypted"


def list_fitting(passwords: Passwords, vault: Labelled) -> list[str]:
    """Return the labels of the passwords that decrypt a vault, in their order."""
    return [each.needed_label() for each in passwords.every() if each.password == vault.password]


def outcome_of(passwords: Passwords, vault: Labelled) -> str:
    """Return what becomes of a vault by the rule: a single password, or the only one of the options, encrypts whatever
    it decrypts; of several, each encrypts only what has its label."""
    fitting = list_fitting(passwords, vault)
    if not fitting:
        return CLOSED
    is_only = {each.password for each in passwords.options or passwords.settings} == {vault.password}
    if is_only or vault.needed_label() in fitting:
        return ENCRYPTED
    return MISLABELLED


def put_vaults(place: Place) -> dict[str, bytes]:
    contents = {name: sealed(vault.password, name.encode(), vault.label) for name, vault in VAULTS.items()}
    for name, content in contents.items():
        place.put(name, content)
    return contents


def give(place: Place, passwords: Passwords) -> list[str]:
    """Put those of the settings into the environment, and return the options."""
    identities = [f"{each.label}@{place.secret(each.password)}" for each in passwords.settings]
    place.environment["ANSIBLE_VAULT_IDENTITY_LIST"] = ",".join(identities)
    words = []
    for each in passwords.options:
        words += place.by_id(each.label, each.password) if each.label else place.by_file(each.password)
    return words


def check_messages(errors: str, passwords: Passwords) -> None:
    """Each vault that is not encrypted again is named. If its label is the reason, the label to give is named, too."""
    outcomes = {name: outcome_of(passwords, vault) for name, vault in VAULTS.items()}
    messages = {name: "".join(line for line in errors.splitlines() if f"./{name}" in line) for name in VAULTS}
    named = {name for name, message in messages.items() if message}
    assert named == {name for name, outcome in outcomes.items() if outcome != ENCRYPTED}, errors
    labels_told = {name: TOLD.findall(messages[name]) for name in VAULTS}
    labels_wanted = {
        name: [(vault.needed_label(), list_fitting(passwords, vault)[0])] if outcomes[name] == MISLABELLED else []
        for name, vault in VAULTS.items()
    }
    assert labels_told == labels_wanted, errors


@pytest.mark.parametrize("passwords", PASSWORD_SETS.values(), ids=PASSWORD_SETS)
def test_check(place: Place, passwords: Passwords) -> None:
    """The check reports what a rotation with the same passwords would not encrypt."""
    # Only in [LABEL@]FILE does an @ end a label.
    place.secrets = place.secrets.rename(place.path / "secrets@home")
    before = put_vaults(place)
    done = place.run(CHECK, *give(place, passwords), ".")
    assert done.returncode == 1, "some have another password"
    check_messages(done.stderr, passwords)
    assert place.files() == before, "all stay"


@pytest.mark.parametrize("passwords", PASSWORD_SETS.values(), ids=PASSWORD_SETS)
def test_rotation(place: Place, passwords: Passwords) -> None:
    """A vault gets the new password of its label, unless it is under the password of another label."""
    place.secrets = place.secrets.rename(place.path / "secrets@home")
    before = put_vaults(place)
    new = [word for label, password in NEW.items() for word in place.by_id(label, password, "new-")]
    done = place.run(ROTATE, *new, *give(place, passwords), ".")
    assert done.returncode == 1, "some have another password"
    check_messages(done.stderr, passwords)
    for name, vault in VAULTS.items():
        if outcome_of(passwords, vault) == ENCRYPTED:
            assert decrypted(NEW[vault.needed_label()], place.get(name)) == name.encode(), f"{name}: its text"
        else:
            assert place.get(name) == before[name], f"{name} stays"


def put_everywhere(place: Place, password: str) -> dict[str, bytes]:
    """Write each vault as a file, as a value, and as a value in a vault under this password. Return the vaults."""
    contents = put_vaults(place)
    for name, content in contents.items():
        place.put(f"value-{name}", yaml_block(content))
        place.put(f"within-{name}", sealed(password, yaml_block(content)))
    return contents


def list_envelopes(place: Place, name: str) -> list[bytes]:
    """Return a vault as it is now, wherever it was written, once the vault around one has the new password."""
    within = decrypted("prod2", place.get(f"within-{name}"))
    assert within is not None, f"the vault around {name} has the new password"
    envelopes = [place.get(name), envelope_of(place.get(f"value-{name}")), envelope_of(within)]
    found = [envelope for envelope in envelopes if envelope is not None]
    assert len(found) == 3, f"{name} is everywhere"
    return found


def give_any_label(place: Place, passwords: Passwords) -> tuple[list[str], set[str]]:
    """Return the options, and the names of the vaults that no password decrypts. Labels have to match by the
    settings, which --any-label overrides."""
    words = give(place, passwords)
    place.environment["ANSIBLE_VAULT_ID_MATCH"] = "yes"
    return words, {name for name, vault in VAULTS.items() if outcome_of(passwords, vault) == CLOSED}


# Those for --any-label.
SEVERAL = [PASSWORD_SETS["two labels"], PASSWORD_SETS["one of the settings"]]


@pytest.mark.parametrize("passwords", SEVERAL, ids=["two labels", "one of the settings"])
def test_check_of_any_label(place: Place, passwords: Passwords) -> None:
    """The check accepts each label. It names what no password decrypts, as a file and as a value, and nothing else."""
    words, closed = give_any_label(place, passwords)
    put_everywhere(place, passwords.options[0].password)
    errors = place.run(CHECK, "--any-label", *words, ".").stderr
    named = {line.split(": ")[1].rpartition("/")[2] for line in errors.splitlines() if ": ./" in line}
    assert {name for name in named if name.startswith("value-")} == {f"value-{name}:2" for name in closed}, errors
    assert {name for name in named if name in VAULTS} == closed, errors


@pytest.mark.parametrize("passwords", SEVERAL, ids=["two labels", "one of the settings"])
def test_rotation_of_any_label(place: Place, passwords: Passwords) -> None:
    """All that an old password decrypts gets the new one and its label, even in a value and in a plaintext."""
    words, closed = give_any_label(place, passwords)
    before = put_everywhere(place, passwords.options[0].password)
    rotate = [ROTATE, "--any-label", *words, *place.by_id("prod", "prod2", "new-"), "."]
    errors = place.run(*rotate).stderr
    for name in VAULTS:
        for envelope in list_envelopes(place, name):
            if name in closed:
                assert envelope == before[name], f"{name} stays"
            else:
                check_relabeled(envelope, name)
    check_named_by_label(errors, closed)
    after = place.files()
    place.run(*rotate)
    assert place.files() == after, "once more, it changes nothing"


def check_relabeled(envelope: bytes, name: str) -> None:
    first_line, _, _ = envelope.partition(b"\n")
    assert first_line == NEW_LINE, f"{name}: its label"
    assert decrypted("prod2", envelope) == name.encode(), f"{name}: its text"


def check_named_by_label(errors: str, closed: Collection[str]) -> None:
    """Check that what has the new label and is not decrypted is named, as a file and as a value, and nothing else."""
    everywhere = [f"{kind}{name}" for name in VAULTS for kind in ("", "value-")]
    named = {name for name in everywhere if f"./{name}:" in errors}
    of_prod = [name for name in closed if VAULTS[name].label == "prod"]
    assert named == {f"{kind}{name}" for name in of_prod for kind in ("", "value-")}, errors


def test_labels_that_come_late(place: Place) -> None:
    """Each program says that the label alone is the reason, and what goes past it. A rotation with the old password as
    the new one changes labels alone."""
    place.put("vault.yml", sealed("old"))
    place.put("values.yml", block("old") + block("old", label="d@v"))
    both = [*place.by_id("dev", "dev"), *place.by_id("prod", "old")]
    new = place.by_id("prod", "new", "new-")
    runs = [[CHECK, *both], [ROTATE, *both, *place.by_id(DEFAULT, "new", "new-")], [EDIT, *both]]
    runs += [[WITH, "rekey", *both, *new], [WITH, "rekey", "--output", "other.yml", *both, *new]]
    for words in runs:
        ended("refused", place.run(*words, "vault.yml", EDITOR="true"), 1, LATE.format(place.secret("old")))
    done = place.run(ROTATE, *both, *new, ".")
    why = "has the label prod; use --any-label to give it to whatever an old password decrypts\n"
    ended("no such label", done, 1, why)
    done = place.run(CHECK, *both, ".")
    ended("an @", done, 1, "its label d@v has an @", "with `ansible-vault-rotate --any-label`\n")
    done = place.run(ROTATE, "--any-label", *both, *new, *place.by_id("dev", "dev", "new-"), ".")
    ended("two", done, 2, "--any-label takes one new password: what has another label gets it, too\n")
    done = place.run(ROTATE, "--any-label", *place.by_file("dev"), *new, ".")
    ended("none", done, 1, "has the label prod, and no old password decrypts what has another one\n")
    place.put("both.yml", sealed("old", block("old")))
    done = place.run(ROTATE, "--any-label", *place.by_file("old"), *place.by_id("prod", "old", "new-"), ".")
    ended("relabeled", done, 0, summary(5))
    assert place.get("vault.yml").startswith(NEW_LINE), "the label of a vault"
    assert place.get("values.yml").count(NEW_LINE) == 2, "the labels of values"
    inner = decrypted("old", place.get("both.yml"))
    assert inner and inner.count(NEW_LINE) == 1, "a value within a vault"
    ended("it fits", place.run(CHECK, *both, "."), 0, "5 decrypted, 0 failed\n")


def test_unreadable_under_any_label(place: Place) -> None:
    """What cannot be decrypted where it is may be under an old password, so it is a failure, but not in a document."""
    joined = b"secret: !vault >\n" + block("old").partition(b"\n")[2]
    for name in ("a.yml", "a.md"):
        place.put(name, joined)
    done = place.run(ROTATE, "--any-label", *place.by_file("old"), *place.by_id("prod", "new", "new-"), ".")
    ended("it is reported", done, 1, "./a.yml:1: its lines are joined")
    assert "a.md" not in done.stderr, "a document"


class Rekeyed(NamedTuple):
    """The vault that is rekeyed, the password that the settings name for the label dev, and what becomes of it."""

    vault: Labelled
    of_dev: str | None
    outcome: str


# Each vault is rekeyed with prod@prod and, for the label dev, the new password.
REKEYED = {
    "its own label": Rekeyed(Labelled("dev", "dev"), "dev", ENCRYPTED),
    "a label that somebody changed": Rekeyed(Labelled("dev", "prod"), "dev", MISLABELLED),
    # Of settings, a password that is missing is left out.
    "a label whose password is missing": Rekeyed(Labelled("dev", "prod"), "missing", MISLABELLED),
    "no label": Rekeyed(Labelled("", "prod"), "dev", MISLABELLED),
    "any label and a single password": Rekeyed(Labelled("dev", "prod"), None, ENCRYPTED),
    "a password that nobody named": Rekeyed(Labelled("dev", "new"), "dev", CLOSED),
}
# Command lines, which print what becomes of the vault.
REKEYS = {"in place": f"{WITH} rekey {{}} v && cat v", "to a pipe": f"cat v | {WITH} rekey {{}} --output -"}
each_rekeyed = pytest.mark.parametrize("row", REKEYED.values(), ids=REKEYED)
each_rekey = pytest.mark.parametrize("line", REKEYS.values(), ids=REKEYS)


def rekey(place: Place, line: str, row: Rekeyed, *options: str) -> Done:
    """Make the vault, and rekey it with old passwords of the settings. The new one goes before their label."""
    place.put("v", sealed(row.vault.password, TEXT, row.vault.label))
    old = {"prod": "prod"} | ({"dev": row.of_dev} if row.of_dev else {})
    variables = {"ANSIBLE_VAULT_ENCRYPT_IDENTITY": "prod"}
    variables["ANSIBLE_VAULT_IDENTITY_LIST"] = ",".join(f"{label}@{place.secret(name)}" for label, name in old.items())
    words = [*place.by_id("dev", "new", "new-"), *options]
    return place.shell(line.format(" ".join(words)), **variables)


@each_rekeyed
@each_rekey
def test_rekey(place: Place, line: str, row: Rekeyed) -> None:
    """What is not rekeyed stays, nothing is printed, and the label to give is named if the label is the reason."""
    done = rekey(place, line, row)
    if row.outcome == ENCRYPTED:
        assert done.returncode == 0, done
        assert decrypted("new", done.stdout.encode()) == TEXT, done
        return
    assert (done.returncode, done.stdout) == (1, ""), done
    assert place.get("v") == sealed(row.vault.password, TEXT, row.vault.label), "it stays"
    of_label = [(row.vault.needed_label(), "prod")] if row.outcome == MISLABELLED else []
    assert TOLD.findall(done.stderr) == of_label, "the label to give"
    is_closed = "no secret decrypts this vault (label dev; tried " in done.stderr
    assert is_closed == (row.outcome == CLOSED), done


@each_rekeyed
@each_rekey
def test_rekey_of_any_label(place: Place, line: str, row: Rekeyed) -> None:
    """With --any-label, only a vault that nothing decrypts is refused."""
    done = rekey(place, line, row, "--any-label")
    if row.outcome == CLOSED:
        assert done.returncode != 0, done
    else:
        assert done.returncode == 0, done
        assert decrypted("new", done.stdout.encode()) == TEXT, done


@each_rekeyed
@each_rekey
def test_rekey_of_its_label_alone(place: Place, line: str, row: Rekeyed) -> None:
    """With --require-id-match, the label is the reason if no password has it."""
    done = rekey(place, line, row, "--require-id-match")
    if row.outcome == ENCRYPTED and row.of_dev:
        assert done.returncode == 0, done
    else:
        assert done.returncode == 1, done
        assert "--require-id-match or vault_id_match forbids the others)" in done.stderr, done


def test_two_of_a_label(place: Place) -> None:
    """Neither encrypts. Two names of one password are no choice, and what is there keeps the password that opens it."""
    place.put("plain.yml", TEXT)
    place.put("a.yml", sealed("dev", label="prod"))
    chosen = ["--encrypt-vault-id", "prod"]
    two = [*place.by_id("prod", "prod"), *place.by_id("dev", "old"), *place.by_id("prod", "dev"), *chosen]
    sides = b"<<<<<<< a\n%s=======\n%s>>>>>>> b\n" % (sealed("dev", b"1\n", "prod"), sealed("old", b"2\n", "dev"))
    place.put("conflict.yml", sides)
    why = f"prod@{place.secret('prod')} and prod@{place.secret('dev')} have the label prod; name only the password"
    both = [sealed("dev", b"1\n", "prod"), sealed("prod", b"2\n", "prod")]
    for words in (
        [WITH, "encrypt", *two, "plain.yml"],
        [WITH, "encrypt_string", *two, "x"],
        [EDIT, *two, "new.yml"],
        [EDIT, *two, "--value", "db_password", "plain.yml"],
        [EDIT, *two, "conflict.yml"],
    ):
        ended("refused", place.run(*words, EDITOR="touch started"), 1, why)
    merged = place.run(MERGE, *two, *versions(place, "m.yml", b"", *both))
    ended("a merge", merged, CONFLICT, why)
    variables = {"ANSIBLE_VAULT_IDENTITY_LIST": f"prod@{place.secret('new')},prod@{place.secret('dev')}"}
    variables["ANSIBLE_VAULT_ENCRYPT_IDENTITY"] = "prod"
    ended("a setting", place.run(WITH, "rekey", "a.yml", **variables), 1, "have the label prod; name only the password")
    assert place.get("plain.yml") == TEXT, "the plaintext stays"
    assert place.get("conflict.yml") == sides, "the conflict stays"
    assert "started" not in place.names(), "no editor is started"
    silent("what is there", edit(place, CHANGE, *two, "a.yml"))
    assert decrypted("dev", place.get("a.yml")) == CHANGED, "it keeps its password"
    place.put("values.yml", block("dev", label="prod"))
    ended("a value that is there", edit(place, CHANGE, *two, "values.yml"), 0, "encrypted secret (label prod)\n")
    assert texts(place.get("values.yml"), "dev") == [CHANGED], "it keeps its password, too"
    one = [*place.by_id("prod", "dev"), *place.by_id("prod", "dev"), *chosen]
    silent("one password", place.run(WITH, "encrypt", *one, "plain.yml"))
    assert decrypted("dev", place.get("plain.yml")) == TEXT, "one password under two names"

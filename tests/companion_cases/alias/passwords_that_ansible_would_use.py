"""Random settings, options, labels and vaults: ansible-vault-with chooses the same secrets as Ansible's tool."""

import shutil
import time
from collections.abc import Callable
from functools import partial
from pathlib import Path
from random import Random
from typing import NamedTuple

import pytest

from companion_cases import PASSWORDS, TEXT, WITH, Described, Place, described, sealed
from lib.ansible import ansible_release
from lib.ansible_runs import AnsibleRuns

# How long to compare command lines, in seconds, if their number is not given.
SHARE = 20
# The least number in all.
LEAST = 40
# The kinds.
SUCCEED = "succeed in both"
REFUSED = "refused by both"
REFUSED_HERE = "refused only here, as documented"
DEFAULT = "default"
LABELS = [DEFAULT, "dev", "prod", "stage"]
# A value that is empty without its quotes.
QUOTED = '""'
# The commands, except rekey, with their arguments.
COMMANDS = [
    *[["view", "a.yml"]] * 2,
    ["decrypt", "a.yml"],
    ["decrypt", "--output", "-", "a.yml"],
    ["encrypt", "plain.yml", "more.yml"],
    ["encrypt", "--output", "new.yml", "plain.yml"],
    ["encrypt_string", "a string", "--name", "name"],
]
# The files of each tree, besides the vault a.yml.
PLAIN = {"plain.yml": TEXT, "more.yml": TEXT}


class Case(NamedTuple):
    """A command line, Ansible's settings and a vault. Secrets are [LABEL@]FILE."""

    command: list[str]
    ids: list[str]
    paths: list[str]
    # The argument of --encrypt-vault-id.
    label: str
    # Whether settings are in variables, or else in the file of the current directory.
    by_variables: bool
    identities: list[str]
    # One, or none.
    password_files: list[str]
    encrypt: str
    match: str
    vault: bytes

    def words(self) -> list[str]:
        options = [f"--vault-id={each}" for each in self.ids]
        options += [f"--vault-password-file={each}" for each in self.paths]
        options += [f"--encrypt-vault-id={self.label}"] if self.label else []
        return [self.command[0], *options, *self.command[1:]]

    def only(self, keep: Callable[[str], bool]) -> "Case":
        """Return the case with some of the secrets of its settings."""
        identities, password_files = ([*filter(keep, each)] for each in (self.identities, self.password_files))
        return self._replace(identities=identities, password_files=password_files)

    def prepare(self, tree: Path) -> dict[str, str]:
        """Make a tree with the vault and the file of settings. Return the variables."""
        shutil.rmtree(tree, ignore_errors=True)
        tree.mkdir()
        for name, content in {"a.yml": self.vault, **PLAIN}.items():
            (tree / name).write_bytes(content)
        values = {
            "vault_identity_list": ", ".join(self.identities),
            "vault_password_file": "".join(self.password_files),
            "vault_encrypt_identity": self.encrypt,
            "vault_id_match": self.match,
            "ask_vault_pass": "False",
        }
        given = {name: value for name, value in values.items() if value}
        if self.by_variables:
            return {f"ANSIBLE_{name.upper()}": value for name, value in given.items()}
        (tree / "ansible.cfg").write_text("\n".join(["[defaults]", *(f"{name} = {given[name]}" for name in given)]))
        return {}


def is_usable(secret: str) -> bool:
    return not secret.endswith(("/none", "/empty"))


def label_of(secret: str) -> str:
    return secret.rpartition("@")[0] or DEFAULT


def random_secrets(random: Random, folder: Path, counts: list[int], unusable: float, labels: list[str]) -> list[str]:
    """Return secrets with these labels, of which one part cannot be used, spelled in several ways."""
    names = ["none", "empty"] if random.random() < unusable else [*PASSWORDS]
    folders = [str(folder), "~/secrets", "../secrets"]
    count = random.choice(counts)
    return [f"{random.choice(labels)}{random.choice(folders)}/{random.choice(names)}" for _ in range(count)]


def random_vault(random: Random, named: list[str]) -> bytes:
    """Return a vault, which most often one of the named secrets decrypts."""
    secret = random.choice(named * 9 + [f"dev@/{name}" for name in PASSWORDS])
    label = random.choice([label_of(secret), *LABELS])
    return sealed(secret.rpartition("/")[2], TEXT, "" if label == DEFAULT else label)


def random_case(random: Random, folder: Path) -> Case:
    some = partial(random_secrets, random, folder)
    labels = ["", *(f"{label}@" for label in LABELS)]
    command = random.choice(COMMANDS)
    ids = some(counts=[0, 0, 1, 1, 2], unusable=0.2, labels=labels)
    paths = some(counts=[0, 0, 0, 1], unusable=0.2, labels=[""])
    seldom_a_label = [""] * 6 + LABELS
    to_encrypt = random.choice(seldom_a_label) if command[0].startswith("encrypt") else ""
    identities = some(counts=[0, 1, 2, 2, 3], unusable=0.2, labels=labels)
    password_files = some(counts=[0, 0, 1], unusable=0.2, labels=[""])
    usable = [each for each in (*identities, *password_files, *ids, *paths) if is_usable(each)]
    return Case(
        vault=random_vault(random, usable),
        command=command,
        ids=ids,
        paths=paths,
        label=to_encrypt,
        identities=identities,
        password_files=password_files,
        encrypt=random.choice(seldom_a_label),
        match=random.choice(["", "", "", "True", "False", QUOTED]),
        by_variables=random.random() < 0.5,
    )


def prefer_options(case: Case) -> Case:
    """Return the case without the secrets of settings that an option goes before, and without a label that is theirs
    alone."""
    labels = [*map(label_of, [*case.ids, *case.paths])]
    if not labels or not case.command[0].startswith("encrypt") or case.label and case.label not in labels:
        return case
    return case.only(lambda secret: False)._replace(encrypt=case.encrypt if case.encrypt in labels else "")


def lacks_secret_to_encrypt_with(case: Case) -> bool:
    """Return whether a secret that could encrypt is unusable, or two have the label. Ansible's tool takes another."""
    if not case.command[0].startswith("encrypt"):
        return False
    label = case.label or case.encrypt
    named = [*case.identities, *case.ids, *case.paths, *case.password_files]
    fitting = [each for each in named if label in ("", label_of(each))]
    has_unusable = not all(map(is_usable, fitting))
    has_several = label != "" and len({Path(each).name for each in fitting}) > 1
    return has_unusable or has_several


def what_counts(case: Case) -> Case | None:
    """Return the case without what counts only for Ansible's tool, or None if the manual page says it is refused."""
    if not all(map(is_usable, (*case.ids, *case.paths))):
        return None
    case = prefer_options(case)
    if lacks_secret_to_encrypt_with(case):
        return None
    if ansible_release() < (2, 14):
        # It does not skip a missing secret beside others.
        return case.only(is_usable)
    if ansible_release() >= (2, 19) and case.by_variables and case.match == QUOTED:
        # In a variable, the quotes count: `ansible_settings.py` has what that means.
        return case._replace(match="")
    return case


# Whether a run succeeds, its output, and the files that have changed.
Outcome = tuple[bool, Described | None, dict[str, Described]]


def outcome_of(case: Case, tree: Path, status: int, output: bytes) -> Outcome:
    before = {"a.yml": case.vault, **PLAIN}
    files = {path.name: path.read_bytes() for path in tree.iterdir() if path.name != "ansible.cfg"}
    changed = {name: described(data) for name, data in files.items() if before.get(name) != data}
    return status == 0, described(output) if status == 0 else None, changed


def run_theirs(place: Place, ansible_runs: AnsibleRuns, case: Case) -> tuple[Outcome, str]:
    """Return the outcome with Ansible's tool, and its messages."""
    tree = place.path / "other"
    variables = place.environment | case.prepare(tree)
    status, output, errors = ansible_runs.run(case.words(), tree, variables)
    return outcome_of(case, tree, status, output), errors


def run_ours(place: Place, case: Case) -> tuple[Outcome, str]:
    done = place.run_on(b"", "setsid", "--wait", WITH, *case.words(), **case.prepare(place.tree))
    return outcome_of(case, place.tree, done.returncode, done.stdout), done.stderr.decode()


def compare(place: Place, ansible_runs: AnsibleRuns, case: Case) -> str:
    """Compare the outcomes of a case, and return of which kind it is."""
    ours, our_errors = run_ours(place, case)
    counted = what_counts(case)
    if counted is None:
        assert ours == (False, None, {}), (case, our_errors)
        return REFUSED_HERE
    theirs, their_errors = run_theirs(place, ansible_runs, counted)
    assert ours == theirs, (case, our_errors, their_errors)
    succeeds, _, _ = theirs
    return SUCCEED if succeeds else REFUSED


def test_command_lines(place: Place, ansible_runs: AnsibleRuns, pytestconfig: pytest.Config) -> None:
    """Compare random command lines, and print how many there were."""
    (place.secrets / "empty").write_bytes(b"\n")
    most = pytestconfig.getoption("--comparisons")
    end = time.monotonic() + SHARE
    random = Random(pytestconfig.getoption("--seed"))
    counts = {SUCCEED: 0, REFUSED: 0, REFUSED_HERE: 0}
    while sum(counts.values()) < (most or LEAST) or not most and time.monotonic() < end:
        case = random_case(random, place.secrets)
        counts[compare(place, ansible_runs, case)] += 1
    assert most or all(counts.values()), f"some of each kind: {counts}"
    print(f"random command lines: {', '.join(f'{count} {what}' for what, count in counts.items())}")

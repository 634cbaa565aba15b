"""The environment, of which a run reads nothing, and the salt of each run."""

from lib.cases import TEXT, Cases, answer_of, by_file, by_id, refusal
from lib.needs import needs
from lib.processes import run
from model.faults import Fault
from model.vaults import seal

# The functions and variables of the C library that give a program its environment.
READERS = {"getenv", "secure_getenv", "environ", "__environ", "_environ"}


def test_environments(cases: Cases) -> None:
    """Ansible's tool would take a secret, a choice and settings from these variables."""
    right, vault = cases.file(b"right\n"), seal(b"right", TEXT, b"dev")
    environment = {
        "ANSIBLE_VAULT_PASSWORD_FILE": right,
        "ANSIBLE_VAULT_IDENTITY": "dev",
        "ANSIBLE_VAULT_IDENTITY_LIST": f"dev@{right}",
        "ANSIBLE_VAULT_ENCRYPT_IDENTITY": "dev",
        "ANSIBLE_VAULT_ID_MATCH": "True",
        "ANSIBLE_CONFIG": cases.file(f"[defaults]\nvault_password_file = {right}\nvault_id_match = True\n".encode()),
    }
    runs = {
        ("view",): refusal(Fault.NO_SECRET_FITS),
        ("rekey", *by_file(right)): refusal(Fault.NEED_NEW_SECRET),
        ("encrypt",): refusal(Fault.NO_ENCRYPT_SECRET),
        ("encrypt", *by_id(right, "dev"), *by_id(right, "prod")): refusal(Fault.MANY_ENCRYPT_SECRETS),
        ("view", *by_id(right, "prod")): (0, TEXT, b""),
    }
    assert {words: answer_of(cases.done(words, vault, env=environment)) for words in runs} == runs


def test_calls_that_read_variables(cases: Cases) -> None:
    needs("nm")
    listed = run(["nm", "--dynamic", "--format=posix", cases.program], check=True).stdout.decode()
    names = {line.split()[0].partition("@")[0] for line in listed.splitlines()}
    assert "open" in names and names & READERS == set()


def test_two_runs(cases: Cases) -> None:
    """Each run really reads a salt of its own, even where Ansible's tool takes one from the environment."""
    right, variables = by_file(cases.file(b"right\n")), {"ANSIBLE_VAULT_ENCRYPT_SALT": "a salt"}
    one, other = [cases.done(["encrypt", *right], TEXT, env=variables).stdout for _ in range(2)]
    assert one != other
    cases.decrypts(right, one, TEXT)
    cases.decrypts(right, other, TEXT)

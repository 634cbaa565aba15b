"""Secrets that Ansible's settings name, compared with Ansible's own tool."""

import os
import re
import shutil
from itertools import product
from typing import NamedTuple

import pytest

from ansible_vault_companions.passwords.settings import Settings
from companion_cases import CHECK, CONFLICT, EDIT, MERGE, ROTATE, TEXT, TEXTCONV, WITH, Place, block, check_answer
from companion_cases import FOUND as FOUND_BLOCK
from companion_cases import described, ended, sealed, texts, versions
from lib.ansible import ansible_release
from lib.needs import needs, needs_root
from lib.subtests import SubTests

OPEN = ("old", "dev", "prod")
LIST = "[defaults]\nvault_identity_list = {}\n"
FILE = "[defaults]\nvault_password_file = {}\n"
BOTH = "[defaults]\nvault_identity_list = dev@../secrets/dev\nvault_password_file = ../secrets/old\n"
NAMED = {"CONFIG": "{}/far/away/my.cfg"}


class Found(NamedTuple):
    """Variables, without ANSIBLE_; files below the tree's parent directory; and the passwords that these name."""

    variables: dict[str, str]
    files: dict[str, str]
    passwords: set[str]


# `passwords_that_ansible_would_use.py` covers more.
FOUND = {
    "an empty variable": Found({"VAULT_IDENTITY_LIST": ""}, {"tree/ansible.cfg": BOTH}, {"old"}),
    "quotes": Found(
        {}, {"tree/ansible.cfg": LIST.format("'dev@../secrets/dev',\n  \"../secrets/old\"")}, {"dev", "old"}
    ),
    "a folder that is named": Found({"CONFIG": "~/far"}, {"far/ansible.cfg": FILE.format("../secrets/dev")}, {"dev"}),
    "a variable beside it": Found(NAMED | {"VAULT_PASSWORD_FILE": "../secrets/old"}, {"far/away/my.cfg": ""}, {"old"}),
    "a missing one": Found(NAMED, {"tree/ansible.cfg": FILE.format("../secrets/old")}, {"old"}),
    "the current folder": Found(NAMED, {"far/away/my.cfg": FILE.format("{{CWD}}/../secrets/old")}, {"old"}),
    "a comment": Found(
        {}, {"tree/ansible.cfg": FILE.format("../secrets/dev ; not old") + "# it = x\nat = %Y\n"}, {"dev"}
    ),
    "a list of another folder": Found({}, {".ansible.cfg": LIST.format("../secrets/dev")}, {"dev"}),
}


@pytest.mark.parametrize("row", FOUND.values(), ids=FOUND)
def test_variables_and_files(place: Place, request: pytest.FixtureRequest, row: Found) -> None:
    """The secrets that variables and files name decrypt the same vaults as with Ansible's tool."""
    for name in OPEN:
        place.put(f"{name}.yml", sealed(name, f"{name}\n".encode()))
    for name, content in row.files.items():
        place.put(f"../{name}", content.encode())
    variables = {f"ANSIBLE_{name}": text.format(place.path) for name, text in row.variables.items()}
    done = place.run("setsid", "--wait", WITH, "view", *(f"{name}.yml" for name in OPEN), **variables)
    assert done.stdout.split() == [name for name in OPEN if name in row.passwords], done.stderr
    assert done.returncode == 1, "some have another password"
    ansible = request.getfixturevalue("ansible_runs")
    for name in OPEN:
        status, output, errors = ansible.run(["view", f"{name}.yml"], place.tree, place.environment | variables)
        shown = output.decode().strip() if status == 0 else None
        assert shown == (name if name in row.passwords else None), f"by Ansible's tool: {errors}"


class Match(NamedTuple):
    """What `vault_id_match` is, where, and whether it forbids a password with another label: to the companions, and to
    Ansible's tool before and since 2.19."""

    value: str
    is_variable: bool
    ours: bool
    before_2_19: bool
    since_2_19: bool


# In variables, quotes are a part of the value since 2.19. Nothing else differs.
MATCHES = [
    Match("True", is_variable=True, ours=True, before_2_19=True, since_2_19=True),
    Match("False", is_variable=True, ours=True, before_2_19=True, since_2_19=True),
    Match("", is_variable=True, ours=False, before_2_19=False, since_2_19=False),
    Match('""', is_variable=True, ours=False, before_2_19=False, since_2_19=True),
    Match("False", is_variable=False, ours=True, before_2_19=True, since_2_19=True),
    Match("", is_variable=False, ours=False, before_2_19=False, since_2_19=False),
    Match('""', is_variable=False, ours=False, before_2_19=False, since_2_19=False),
]


@pytest.mark.parametrize("row", MATCHES, ids=str)
def test_match(place: Place, request: pytest.FixtureRequest, row: Match) -> None:
    place.put("a.yml", sealed("old", label="dev"))
    variables = {}
    if row.is_variable:
        variables["ANSIBLE_VAULT_ID_MATCH"] = row.value
    else:
        place.put("../.ansible.cfg", f"[defaults]\nvault_id_match = {row.value}\n".encode())
    words = ["view", *place.by_id("prod", "old"), "a.yml"]
    done = place.run(WITH, *words, **variables)
    assert (done.returncode == 1) == row.ours, f"forbidden by the companion: {done.stderr}"
    ansible = request.getfixturevalue("ansible_runs")
    status, _, errors = ansible.run(words, place.tree, place.environment | variables)
    by_ansible = row.since_2_19 if ansible_release() >= (2, 19) else row.before_2_19
    assert (status == 1) == by_ansible, f"forbidden by Ansible's tool: {errors}"


class Settled(NamedTuple):
    """Files and variables that name the password `dev`, which a script prints that notes that it runs."""

    files: dict[str, str] = {}
    variables: dict[str, str] = {}


SETTLED = {
    "./ansible.cfg": Settled(files={"ansible.cfg": LIST.format("dev@../secrets/dev")}),
    "a relative path, as direnv sets it": Settled(variables={"ANSIBLE_VAULT_PASSWORD_FILE": "script"}),
    "$PWD": Settled(variables={"ANSIBLE_VAULT_IDENTITY_LIST": "dev@$PWD/script"}),
    "a file of the user's own": Settled(files={"../.ansible.cfg": FILE.format("{{CWD}}/script")}),
    "a named file": Settled(files={"far/my.cfg": FILE.format("../script")}, variables={"ANSIBLE_CONFIG": "far/my.cfg"}),
}
OLD = "--vault-password-file=../secrets/old"
NEW = "--new-vault-id=new@../secrets/new"
# What reads beside an option for a password that does not open the vault, and what takes the old password from the
# settings alone.
READING = [
    f"{CHECK} --any-label {OLD} a.yml",
    f"{WITH} view {OLD} a.yml",
    f"{WITH} decrypt {OLD} --output - a.yml",
    f"{EDIT} --any-label {OLD} a.yml",
    f"{WITH} rekey --any-label {OLD} {NEW} a.yml",
    f"{WITH} rekey {NEW} a.yml",
    f"{ROTATE} --any-label {NEW} a.yml",
    f"{TEXTCONV} --value . a.yml || {TEXTCONV} a.yml | grep ^db_password",
]
# What encrypts beside such an option, without an editor.
ENCRYPTING = [
    f"{WITH} encrypt {OLD} plain.yml",
    f"{WITH} encrypt_string {OLD} --output plain.yml word",
    f"{WITH} create {OLD} plain.yml",
    f"{EDIT} --any-label {OLD} values.yml",
]


def put_settings_of(place: Place, row: Settled) -> None:
    # PWD is as a shell sets it.
    place.environment |= {"PWD": str(place.tree), **row.variables}
    place.environment["EDITOR"] = place.script('echo "word: !vault more" >> "$1"', "editor")
    for name, content in row.files.items():
        place.put(name, content.encode())
    place.put("script", b"#!/bin/sh\ntouch ../ran; cat ../secrets/dev\n", 0o755)
    place.put("a.yml", sealed("dev"))


def is_refused(row: Settled, line: str) -> bool:
    """Whether an edit beside an option would encrypt with what only ./ansible.cfg names."""
    return "ansible.cfg" in row.files and line.startswith(EDIT)


@pytest.mark.parametrize("row", SETTLED.values(), ids=SETTLED)
@pytest.mark.parametrize("line", READING)
def test_reading_beside_options(place: Place, row: Settled, line: str) -> None:
    """To read, an option adds to the settings."""
    put_settings_of(place, row)
    done = place.shell(line)
    if is_refused(row, line):
        ended("the edit", done, 1, "decrypts it, which only ./ansible.cfg names; to encrypt with it, name it ")
    else:
        assert done.returncode == 0 and (place.path / "ran").exists() == ("script" in repr(row)), done


@pytest.mark.parametrize("row", SETTLED.values(), ids=SETTLED)
@pytest.mark.parametrize("line", ENCRYPTING)
@pytest.mark.parametrize("label", ("", "dev"))
def test_encrypting_beside_options(place: Place, row: Settled, line: str, label: str) -> None:
    """To encrypt, a password that an option names goes before those of the settings, whatever label these choose."""
    put_settings_of(place, row)
    place.put("values.yml", block("dev", name="theirs", label="dev"))
    place.put("plain.yml", TEXT)
    if "create" in line:
        (place.tree / "plain.yml").unlink()
    done = place.shell(line, ANSIBLE_VAULT_ENCRYPT_IDENTITY=label)
    assert done.returncode == (1 if is_refused(row, line) else 0), done
    if done.returncode:
        return
    written = FOUND_BLOCK.findall(place.get(line.split()[-1] if "string" not in line else "plain.yml"))[-1]
    assert [text is not None for text in (texts(written, "old")[0], texts(written, "dev")[0])] == [True, False], done


@pytest.mark.parametrize("row", SETTLED.values(), ids=SETTLED)
def test_what_git_runs(place: Place, row: Settled) -> None:
    """Beside an option, textconv and merge read no settings, so no repository makes them run a script."""
    put_settings_of(place, row)
    done = place.run(TEXTCONV, OLD, "a.yml")
    ended("it shows the vault as it is", done, 0, "not decrypted", "no secret decrypts this vault (label default")
    words = versions(place, "b.yml", sealed("dev"), sealed("dev", b"ours\n"), sealed("dev", b"theirs\n"))
    ended("it merges nothing", place.run(MERGE, OLD, *words), CONFLICT, f"tried {OLD.partition('=')[2]})")
    assert not (place.path / "ran").exists(), "no script is run"


@pytest.mark.parametrize("written", ["prod", "'prod'", '"prod"'])
def test_quotes_around_a_label(place: Place, written: str) -> None:
    """Quotes around the label to encrypt with are removed, in a variable and in a file."""
    place.put("../my.cfg", f"[defaults]\nvault_encrypt_identity = {written}\n".encode())
    for variables in ({"VAULT_ENCRYPT_IDENTITY": written}, {"CONFIG": f"{place.path}/my.cfg"}):
        place.put("plain.yml", TEXT)
        words = [*place.by_id("dev", "dev"), *place.by_id("prod", "prod"), "plain.yml"]
        done = place.run(WITH, "encrypt", *words, **{f"ANSIBLE_{name}": text for name, text in variables.items()})
        check_answer("encrypt", done)
        assert described(place.get("plain.yml")) == (b"$ANSIBLE_VAULT;1.2;AES256;prod", ("prod", TEXT))


# The secrets of settings that are skipped, and the reason for each.
SKIPPED = {"a@/none": "No such file or directory", "b@/tmp": "Is a directory", "c@/dev/null": "a password is empty"}


def test_each_one_that_is_skipped(place: Place) -> None:
    """Each has a warning of its own, in their order."""
    place.put("a.yml", sealed("old"))
    variables = {"ANSIBLE_VAULT_IDENTITY_LIST": ", ".join([*SKIPPED, "../secrets/old"])}
    warnings = [f"{CHECK}: {source}: {why}; it is ignored\n" for source, why in SKIPPED.items()]
    check_answer("the check", place.run(CHECK, "a.yml", **variables), output=None, errors="".join(warnings))


@pytest.mark.parametrize("count, status", [(16, 0), (17, 1)])
def test_most_secrets(place: Place, count: int, status: int) -> None:
    """Options and settings together name no more than the program takes."""
    place.put("a.yml", sealed("old"))
    for of_settings in (0, 1, 9, count):
        listed = ",".join([place.secret("old")] * of_settings)
        words = ["--vault-id=../secrets/old"] * ((count - of_settings) // 2)
        words += ["--vault-password-file=../secrets/old"] * (count - of_settings - len(words))
        for companion in ([CHECK], [WITH, "view"]):
            done = place.run(*companion, *words, "a.yml", ANSIBLE_VAULT_IDENTITY_LIST=listed)
            why = f"{count} passwords are named, and ansible-vault takes at most 16\n" if status else ""
            ended(f"{companion[0]} with {of_settings} of the settings", done, status, why)


# A home directory that there is not.
LOST = "~nobody-has-this-name/script"
WHY_LOST = "~ leads to no home directory; to mean a file of this name, begin with ./"


class Homeless(NamedTuple):
    """A command line and variables with a password there, the status, and what is said."""

    line: str
    variables: dict[str, str]
    status: int
    told: str


BESIDE = f"../secrets/old, dev@{LOST}"
HOMELESS = {
    "a path": Homeless(f"{CHECK} --vault-password-file '{LOST}'", {}, 1, f"{LOST}: {WHY_LOST}"),
    "a source": Homeless(f"{CHECK} --vault-id dev@{LOST}", {}, 1, f"dev@{LOST}: {WHY_LOST}"),
    "one for git": Homeless(f"{TEXTCONV} --vault-id dev@{LOST}", {}, 0, f"dev@{LOST}: {WHY_LOST}; it is ignored"),
    "a list": Homeless(CHECK, {"ANSIBLE_VAULT_IDENTITY_LIST": BESIDE}, 0, f"dev@{LOST}: {WHY_LOST}; it is ignored"),
    "a variable": Homeless(CHECK, {"ANSIBLE_VAULT_PASSWORD_FILE": LOST}, 1, f"{LOST}: {WHY_LOST}"),
    "a variable of a variable": Homeless(CHECK, {"ANSIBLE_VAULT_PASSWORD_FILE": "$LOST"}, 1, f"$LOST: {WHY_LOST}"),
}


@pytest.mark.parametrize("row", HOMELESS.values(), ids=HOMELESS)
def test_homes_that_are_missing(place: Place, row: Homeless) -> None:
    """Where nobody has the name after ~, a directory of that name in a stranger's repository does not count."""
    place.put(LOST, b"#!/bin/sh\ntouch ran; cat ../secrets/dev\n", 0o755)
    place.put("a.yml", sealed("old"))
    ended("it is refused", place.shell(f"{row.line} a.yml", LOST=LOST, **row.variables), row.status, row.told)
    assert "ran" not in place.names(), "no script is run"
    ended("with ./", place.run(CHECK, "--vault-id", f"./{LOST}", "a.yml"), 1, f"tried ./{LOST})")
    assert "ran" in place.names(), "the script is run"


def test_no_home(place: Place, monkeypatch: pytest.MonkeyPatch) -> None:
    """A user without a home directory has no ~/.ansible.cfg, even in a directory that has this path."""
    monkeypatch.setattr(os.path, "expanduser", lambda path: path)
    monkeypatch.chdir(place.tree)
    place.put("~/.ansible.cfg", FILE.format("/the/strangers").encode())
    assert Settings(print).find_password_file() == "", "none is found"


# In each file, a text that is not to be shown.
HIDDEN = b"s3cret"
MALFORMED = {
    "no section": (b"# x\n%s\n" % HIDDEN, "line 2 is no section, or no KEY = VALUE of its own"),
    "no value": (b"[defaults]\n\n%s\n%s\n" % (HIDDEN, HIDDEN), "line 3 is no section, or no KEY = VALUE of its own"),
    "a section twice": (b"[%s]\n[%s]\n" % (HIDDEN, HIDDEN), "line 2 is no section, or no KEY = VALUE of its own"),
    "a key twice": (
        b"[defaults]\n%s = 1\n%s = 2\n" % (HIDDEN, HIDDEN),
        "line 3 is no section, or no KEY = VALUE of its own",
    ),
    "Latin-1": (b"# \xff", "it is not UTF-8"),
    "a NUL byte": (b"#\0", "it has a NUL byte"),
}


@pytest.mark.parametrize("content, why", MALFORMED.values(), ids=MALFORMED)
def test_faults(place: Place, content: bytes, why: str) -> None:
    """Settings that cannot be read are named at once, but not shown, and nothing is done without them."""
    place.put("ansible.cfg", content)
    done = place.run(CHECK, ".")
    ended("it is refused", done, 1, f"{CHECK}: ansible.cfg: {why}")
    assert HIDDEN.decode() not in done.stdout + done.stderr


def test_links(place: Place, subtests: SubTests) -> None:
    """A link named ansible.cfg leads out of its repository only if the user names it. In a repository, it is as good as
    a file, and relative paths start from its own directory, as with Ansible."""
    needs("git")
    place.shell("git init -q project")
    place.put("project/a.yml", sealed("old"))
    place.put("project/inner/my.cfg", FILE.format("../../secrets/old").encode())
    place.put("other/my.cfg", FILE.format("../../secrets/old").encode())
    link = place.tree / "project/ansible.cfg"
    for target in ("../../secrets/old", "../other/my.cfg", f"{place.tree}/other/my.cfg", ".git/HEAD"):
        with subtests.test(target):
            link.symlink_to(target)
            done = place.run(CHECK, "a.yml", folder="project", ANSIBLE_VAULT_PASSWORD_FILE="../../secrets/old")
            ended("it is refused", done, 1, f"{CHECK}: ansible.cfg: a link leads out of {place.tree}/project; name ")
        link.unlink()
    link.symlink_to("inner/my.cfg")
    ended("a link within", place.run(CHECK, "a.yml", folder="project"), 0)
    link.unlink()
    link.symlink_to("../other/my.cfg")
    ended("what is named", place.run(CHECK, "a.yml", folder="project", ANSIBLE_CONFIG="ansible.cfg"), 0)


class Chosen(NamedTuple):
    """Secrets of the settings, the label to encrypt with, and the one password that is there."""

    listed: str
    label: str
    there: str


CHOSEN = {
    "two labels": Chosen("dev@../secrets/dev, prod@../secrets/none", "", there="dev"),
    "a label that is missing": Chosen("dev@../secrets/dev, prod@../secrets/none", "prod", there="dev"),
    "the first of a label": Chosen("prod@../secrets/none, prod@../secrets/old", "prod", there="old"),
    "a label that is there": Chosen("prod@../secrets/none, dev@../secrets/dev", "dev", there="dev"),
}
# Command lines that encrypt. `passwords_that_ansible_would_use.py` has others. Without a label, rekey would ask for a
# password, and --value takes the label from the option alone.
SEALING = [f"{WITH} rekey --encrypt-vault-id {{}} a.yml", f"{EDIT} new.yml", f"{EDIT} values.yml"]
SEALING += [f"{EDIT} --value=word --encrypt-vault-id {{}} values.yml", f"{WITH} encrypt plain.yml"]


@pytest.mark.parametrize("row", CHOSEN.values(), ids=CHOSEN)
@pytest.mark.parametrize("line", SEALING)
def test_missing_secrets_to_encrypt_with(place: Place, line: str, row: Chosen) -> None:
    """If the secret to encrypt with is missing, no other one encrypts in its place. Others may be missing."""
    place.put("values.yml", b"word: !vault TEXT\n")
    place.put("plain.yml", TEXT)
    place.put("a.yml", sealed(row.there, label=row.label))
    before = place.files()
    words = line.format(row.label or "prod").split()
    variables = {"ANSIBLE_VAULT_IDENTITY_LIST": row.listed, "ANSIBLE_VAULT_ENCRYPT_IDENTITY": row.label}
    variables["EDITOR"] = place.script('test -s "$1" || echo new > "$1"', "editor")
    done = place.run_on(b"new", "setsid", "--wait", *words, **variables)
    if row.label == row.there:
        assert done.returncode == 0, done
        header, found = described(place.get(words[-1]))
        assert header.decode() == f"$ANSIBLE_VAULT;1.2;AES256;{row.label}", "its label"
        assert found and found[0] == row.there, "its password"
        return
    assert done.returncode == 1, done
    has_label = row.label != "" or "{}" in line
    why = "no other password encrypts in its place" if has_label else "--encrypt-vault-id"
    assert why in done.stderr.decode(), done
    assert place.files() == before, "all stays"
    if row.label:
        assert place.left() == [], "no editor was opened"


# Modes of directories in which everybody may write, and of others.
OPEN_MODES = [0o777, 0o1777, 0o2777, 0o703, 0o1707]
CLOSED_MODES = [0o700, 0o755, 0o775, 0o1775, 0o2770]


@pytest.mark.parametrize("mode", [*OPEN_MODES, *CLOSED_MODES], ids=oct)
def test_world_writable_folders(place: Place, mode: int) -> None:
    """As with Ansible's tool, a configuration file in a world-writable directory is ignored, even if the directory is
    sticky, such as /tmp; unless it is named."""
    place.put("ansible.cfg", FILE.format("../secrets/old").encode())
    place.put("../.ansible.cfg", FILE.format("secrets/dev").encode())
    place.put("a.yml", sealed("old"))
    place.tree.chmod(mode)
    done = place.run(CHECK, ".")
    if mode in OPEN_MODES:
        warning = f"{CHECK}: {place.tree}/ansible.cfg is ignored, since its directory is world-writable\n"
        ended("the next one counts", done, 1, warning, f"tried {place.secret('dev')}")
    else:
        check_answer("it counts", done, output=None)
    ended("what is named counts", place.run(CHECK, ".", ANSIBLE_CONFIG="ansible.cfg"), 0)


# The files of settings in Ansible's order, and the password that each names.
PLACES = {"my.cfg": "dev", "tree/ansible.cfg": "old", ".ansible.cfg": "new", "etc/ansible/ansible.cfg": "prod"}
# Every choice of them.
CHOICES = [
    [path for path, is_there in zip(PLACES, chosen) if is_there]
    for chosen in product((False, True), repeat=len(PLACES))
]


def put_settings(place: Place, there: list[str]) -> None:
    for path, password in PLACES.items():
        place.put(f"../{path}", FILE.format(place.secret(password)).encode())
        if path not in there:
            (place.path / path).unlink()


def test_places(place: Place) -> None:
    """The first of the files that are there counts, and no other. No other process sees this /etc."""
    needs("unshare")
    needs_root()
    shutil.copytree("/etc", place.path / "etc", symlinks=True)
    here = ["unshare", "--mount", "sh", "-c", 'mount --bind ../etc /etc && exec "$@"', "sh", str(place.tools / CHECK)]
    for password in PLACES.values():
        place.put(f"{password}.yml", sealed(password))
    for there in CHOICES:
        put_settings(place, there)
        variables = {"ANSIBLE_CONFIG": "../my.cfg"} if "my.cfg" in there else {}
        done = place.run(*here, ".", **variables)
        decrypted = re.findall(r"(\w+)\.yml: default: decrypted", done.stdout)
        assert decrypted == [PLACES[path] for path in there][:1], f"{there}: {done}"


def test_named_file_that_cannot_be_read(place: Place) -> None:
    """It has a warning, and the next place counts, as with Ansible. A variable in its path is expanded."""
    place.put("ansible.cfg", FILE.format("../secrets/old").encode())
    place.put("a.yml", sealed("old"))
    place.put("d$SHELL/my.cfg", FILE.format("../../secrets/dev").encode())
    (place.tree / "empty").mkdir()
    top = str(place.tree)
    for named, path in {
        "none": "none",
        f"{top}/none": f"{top}/none",
        "~/none/": f"{place.path}/none/",
        f"{top}/d$SHELL/my.cfg": f"{top}/d/bin/dash/my.cfg",
        "empty": "empty/ansible.cfg",
        "a.yml/none": "a.yml/none",
    }.items():
        done = place.run(CHECK, "a.yml", ANSIBLE_CONFIG=named, SHELL="/bin/dash")
        warning = f"{CHECK}: ANSIBLE_CONFIG: {path} cannot be read; it is ignored\n"
        check_answer(named, done, output=None, errors=warning)
    for named in ("/dev/null", "a.cfg"):
        place.put("a.cfg", b"")
        ended(f"{named} counts", place.run(CHECK, "a.yml", ANSIBLE_CONFIG=named), 2, "no password is given")


def test_values_for_true(monkeypatch: pytest.MonkeyPatch) -> None:
    """Ansible reads these as true, in any case, and no others."""
    values = dict.fromkeys("y yes on 1 true t".split(), True) | dict.fromkeys("n no off 0 false f 2 tr".split(), False)
    for value, is_true in values.items():
        for spelling in (value, value.upper(), value.title(), f"'{value}'"):
            monkeypatch.setenv("ANSIBLE_ASK_VAULT_PASS", spelling)
            assert Settings(print).is_asking() == is_true, spelling


def test_rekey_beside_an_old_password(place: Place) -> None:
    """Where an option names an old password, the settings choose no new one, even if that has the same label."""
    before = sealed("old", label="prod")
    place.put("a.yml", before)
    settings = {"ANSIBLE_VAULT_IDENTITY_LIST": f"prod@{place.secret('prod')}", "ANSIBLE_VAULT_ENCRYPT_IDENTITY": "prod"}
    done = place.run(WITH, "rekey", *place.by_id("prod", "old"), "a.yml", **settings)
    ended("rekey", done, 1, "no new password is given: name one with --new-vault-id")
    assert place.get("a.yml") == before, "the vault stays"

"""Where this project's program is not installed, Ansible's ansible-vault encrypts and decrypts for the companions."""

import sys
from pathlib import Path

import pytest

from companion_cases import CHANGE, CHANGED, CHECK, EDIT, HOOK, MERGE, NOT_DECRYPTED, PASSWORDS, ROTATE, TEXT, TEXTCONV
from companion_cases import WITH, Place, block, check_answer, decrypted, described, edit, ended, first_line
from companion_cases import line_of_values, sealed, silent, summary, texts, to_new, versions
from companion_cases.repository import under_git
from companion_cases.terminal import ask
from lib.ansible import ansible_release
from lib.needs import needs, needs_ansible
from lib.paths import version

IS_DAMAGED = "it is damaged: vault is malformed; restore an earlier version"
THE_TOOL = "the tool is Ansible's"


@pytest.fixture
def without(place: Place) -> Place:
    """A place with Ansible's tool instead of the program, which is not on PATH."""
    (place.tools / "ansible-vault").unlink()
    (place.tools / "ansible-vault").symlink_to(needs_ansible())
    return place


def test_show(without: Place) -> None:
    """Nothing but the text is printed, whatever its bytes."""
    data = bytes(range(256)) * 300
    without.put("a.yml", sealed("old", data, "prod"))
    done = without.run_on(b"", TEXTCONV, *without.by_file("old"), "a.yml")
    assert (done.returncode, done.stdout, done.stderr) == (0, first_line("prod").encode() + data, b"")
    without.put("b.yml", block("old") + block("old", b"2", name="x"))
    shown = f"{line_of_values(2)}secret: !vault |\n  {TEXT.decode()}x: !vault |-\n  2\n"
    check_answer("values", without.run(TEXTCONV, *without.by_file("old"), "b.yml"), output=shown)


# What is shown as it is, and how the reason begins.
REFUSED = {
    "another password": (sealed("new"), "no secret decrypts this vault (label default; tried "),
    "a changed digit": (sealed("old")[:-2] + b"0\n", ""),
    "half a vault": (sealed("old")[:200] + b"\n", IS_DAMAGED),
    "another version": (sealed("old").replace(b";1.1;", b";1.9;"), IS_DAMAGED),
    "no hexadecimal digit": (sealed("old").replace(b"\n3", b"\ng"), IS_DAMAGED),
}


@pytest.mark.parametrize("name", REFUSED)
def test_refusals(without: Place, name: str) -> None:
    content, why = REFUSED[name]
    without.put("a.yml", content)
    done = without.run(TEXTCONV, *without.by_file("old"), "a.yml")
    assert (done.returncode, done.stdout) == (0, NOT_DECRYPTED + content.decode())
    assert done.stderr.startswith(f"{TEXTCONV}: a.yml: shown as it is: {why}"), done.stderr
    done = without.run(CHECK, *without.by_file("old"), "a.yml")
    assert done.returncode == 1 and why in done.stderr, done


def test_edit_and_labels(without: Place) -> None:
    """The envelopes have the form of those that this project's program writes."""
    without.environment["EDITOR"] = without.script(CHANGE, "editor")
    for name, label in (("a.yml", ""), ("b.yml", "prod")):
        without.put(name, sealed("old", label=label))
        silent(name, without.run(EDIT, *without.by_id(label or "default", "old"), name))
    assert described(without.get("a.yml")) == (b"$ANSIBLE_VAULT;1.1;AES256", ("old", CHANGED))
    assert described(without.get("b.yml")) == (b"$ANSIBLE_VAULT;1.2;AES256;prod", ("old", CHANGED))


def test_keys(without: Place) -> None:
    """Ctrl-C is for the editor alone, so the text that is saved then can still be encrypted."""
    without.put("a.yml", sealed("old"))
    editor = without.script(f"trap '' INT; kill -INT 0; {CHANGE}", "editor")
    assert ask(without, EDIT, *without.by_file("old"), "a.yml", answers=[], EDITOR=editor).returncode == 0
    assert decrypted("old", without.get("a.yml")) == CHANGED


def test_killed(without: Place) -> None:
    """If Ansible's process ends during an edit, the file stays, and a message says where the text is."""
    without.put("a.yml", sealed("old"))
    before = without.files()
    kill = "for each in $(cat /proc/$PPID/task/$PPID/children); do [ $each = $$ ] || kill -9 $each; done"
    done = edit(without, f"{kill}; {CHANGE}", *without.by_file("old"), "a.yml")
    ended("the edit", done, 1, "Ansible's ansible-vault ended early")
    assert "Traceback" not in done.stderr and without.files() == before
    [folder] = [path for path in without.left() if f" is left in plaintext in {path}\n" in done.stderr]
    assert Path(folder, "a.yml").read_bytes() == CHANGED


def test_home(without: Place) -> None:
    """Ansible would make a directory in the home."""
    without.put("a.yml", sealed("old"))
    ended("it works", without.run(CHECK, *without.by_file("old"), "a.yml", HOME="/dev/null"), 0, "1 decrypted")


def test_merge(without: Place, git: None) -> None:
    base, ours, theirs = (sealed("old", text) for text in (b"1\n2\n3\n", b"0\n2\n3\n", b"1\n2\n4\n"))
    words = versions(without, "a.yml", base, ours, theirs)
    silent("the merge", without.run(MERGE, *without.by_file("old"), *words))
    assert decrypted("old", without.get("a.yml")) == b"0\n2\n4\n"


def test_one_process(without: Place) -> None:
    """Ansible starts once for all vaults and values, and no secret is in arguments, variables or files."""
    needs("strace")
    names = [f"{number}.yml" for number in range(9)]
    for name in names:
        without.put(name, block("old") + block("old", b"horse", name="x"))
    trace = "-s 4096 -v -e trace=execve,openat,write"
    done, lines = without.traced(trace, ROTATE, *to_new(without), ".")
    ended("the rotation", done, 0, summary(18))
    assert [texts(without.get(name), "new") for name in names] == [[TEXT, b"horse"]] * 9
    calls = [line for line in lines if "write(" not in line]
    assert len({line.split()[0] for line in calls if "execve(" in line and "ansible_worker" in line}) == 1
    secrets = [each.decode() for each in (*PASSWORDS.values(), b"correct horse")]
    assert [line for line in calls if any(secret in line for secret in secrets)] == []
    # The text itself is seen where it passes through a pipe.
    assert any(secrets[-1] in line for line in lines)
    written = [line for line in calls if "openat(" in line and "O_CREAT" in line and "<unfinished" not in line]
    assert [line for line in written if ".new" not in line] == [], "only new envelopes are written"


def test_settings(without: Place) -> None:
    """No variable and no ansible.cfg changes what Ansible does, beside what the companions read of them themselves."""
    for path in (without.tree / "ansible.cfg", without.path / ".ansible.cfg"):
        path.write_text("[defaults]\nvault_encrypt_salt = same\nvault_id_match = true\nlocal_tmp = /no/directory\n")
    for name in ("a.yml", "b.yml"):
        without.put(name, sealed("old", name.encode(), label="prod"))
    without.put("ansible/__init__.py", b"raise SystemExit(7)\n")
    log = without.path / "log"
    variables = {"ANSIBLE_VAULT_ENCRYPT_SALT": "same", "ANSIBLE_CONFIG": f"{without.tree}/ansible.cfg"}
    variables |= {"ANSIBLE_LOG_PATH": str(log), "PYTHONPATH": str(without.tree), "LC_ALL": "C"}
    words = ["--any-label", "--vault-id", f"x@{without.secret('old')}", "--new-vault-id", f"y@{without.secret('new')}"]
    ended("the rotation", without.run(ROTATE, *words, "a.yml", "b.yml", **variables), 0, summary(2))
    inner = [bytes.fromhex(b"".join(without.get(name).split(b"\n")[1:]).decode()) for name in ("a.yml", "b.yml")]
    assert len({each.partition(b"\n")[0] for each in inner}) == 2, "the salts differ"
    assert not log.exists()


# Scripts that start Ansible's tool: as pip writes it where the path of Python has a space, and as pyenv does.
SCRIPTS = {
    "pip": "#!/bin/sh\n'''exec' \"{python}\" \"$0\" \"$@\"\n' '''\nimport ansible.cli.vault\n",
    "uv": "#!/bin/sh\n'''exec' '{python}' \"$0\" \"$@\"\n' '''\nimport ansible.cli.vault\n",
    "env": "#!/usr/bin/env -S '{python}'\nimport ansible.cli.vault\n",
    "pyenv": '#!/usr/bin/env bash\nexec {ansible} "$@"\n',
}


def run_alone(place: Place, *words: str) -> tuple[int, str]:
    """Run a companion with no other program on PATH than those of the place. Return its status, and what it prints."""
    done = place.run(sys.executable, "-IB", str(place.tools / words[0]), *words[1:], PATH=str(place.tools))
    return done.returncode, done.stdout + done.stderr


@pytest.mark.parametrize("name", SCRIPTS)
def test_scripts(without: Place, name: str) -> None:
    """The Python of each is found. To pyenv, only the version names it, and not that of 2.10."""
    path, ansible = without.tools / "ansible-vault", needs_ansible()
    python = Path(ansible).read_text().partition("\n")[0].removeprefix("#!").split()
    path.unlink()
    path.write_text(SCRIPTS[name].format(python=python[0], ansible=ansible))
    path.chmod(0o755)
    is_found = f"{THE_TOOL} {path} (" in without.run(CHECK, "--version").stdout
    assert is_found == (name != "pyenv" or ansible_release() >= (2, 14))


# Programs that are not Ansible's, whatever they say and import. One says what Ansible 2.10 says.
RAN = '#!/bin/sh\n[ "$1" = --version ] || echo > ../ran\n'
OTHERS = {
    "a version": f"{RAN}echo 'ansible-vault [core 9.9]'\n",
    "that of 2.10": f"{RAN}printf 'ansible-vault 2.10.17\\n  config file = None\\n'\n",
    "a Python": f"{RAN}printf 'ansible-vault [core 9.9]\\n  python version = 3 (/bin/false)\\n'\n",
    "an import": f"#!{sys.executable} -S\nimport ansible.cli; print('ansible-vault [core 9.9]')\n",
    "no Python": "#!/no/python3\n",
}


@pytest.mark.parametrize("text", OTHERS.values(), ids=OTHERS)
def test_not_by_name(place: Place, text: str) -> None:
    """A program of this name is asked for its version at most, and its Python for Ansible's module."""
    path = place.tools / "ansible-vault"
    path.unlink()
    path.write_text(text)
    path.chmod(0o755)
    place.put("a.yml", sealed("old"))
    status, printed = run_alone(place, CHECK, *place.by_file("old"), "a.yml")
    assert status == 1 and f"{path} " in printed and "Traceback" not in printed, printed
    assert not (place.path / "ran").exists()


def test_own_first(without: Place) -> None:
    """This project's program counts, even if Ansible's is beside the companion and comes first on PATH."""
    folder = without.path / "own"
    folder.mkdir()
    without.script(f'touch ../ran; exec {without.program} "$@"', "own/ansible-vault")
    without.put("a.yml", sealed("old"))
    path = f"{without.environment['PATH']}:{folder}"
    ended("the check", without.run(CHECK, *without.by_file("old"), "a.yml", PATH=path), 0, "1 decrypted")
    assert (without.path / "ran").exists()


def test_alias(without: Place) -> None:
    """The alias runs this project's program itself, with all of its options, so it needs that."""
    (without.tools / "ansible-vault").rename(without.path / "ansible-vault")
    path = f"{without.path}:{without.environment['PATH']}"
    without.put("a.yml", sealed("old"))
    done = without.run(WITH, "view", *without.by_file("old"), "a.yml", PATH=path)
    assert done.returncode == 1 and "is not the ansible-vault that the companions need" in done.stderr, done


@pytest.mark.parametrize("companion", [CHECK, EDIT, MERGE, ROTATE, TEXTCONV])
def test_version(place: Place, companion: str) -> None:
    """The version names the tool, or says that there is none."""
    own = place.tools / "ansible-vault"
    first = f"{companion} {version()}\n"
    assert run_alone(place, companion, "--version") == (0, f"{first}the tool is {own}\n")
    own.unlink()
    none = "there is no ansible-vault beside this program or on PATH; install it\n"
    assert run_alone(place, companion, "--version") == (0, first + none)
    own.symlink_to(needs_ansible())
    done = place.run(companion, "--version")
    assert done.returncode == 0 and done.stdout.startswith(f"{first}{THE_TOOL} {own} ("), done


# Whether a companion says at a terminal that Ansible's tool works.
SAYS = {CHECK: True, EDIT: True, ROTATE: True, TEXTCONV: False, MERGE: False}


@pytest.mark.parametrize("companion", SAYS)
def test_at_terminal(without: Place, git: None, companion: str) -> None:
    """Whoever has the program on PATH, and then no more, is told. With the program, nothing is said."""
    words = {
        **{CHECK: ["a.yml"], EDIT: ["a.yml"], TEXTCONV: ["a.yml"]},
        **{ROTATE: [*without.by_file("new", "new-"), "a.yml"], MERGE: versions(without, "a.yml", *[sealed("old")] * 3)},
    }[companion]
    without.put("a.yml", sealed("old"))
    line = ["sh", "-c", 'exec "$@" 2> /dev/tty', "sh", companion, *without.by_file("old"), *words]
    shown = ask(without, *line, answers=[], EDITOR="true").shown
    assert (f"{companion}: {THE_TOOL}" in shown) == SAYS[companion], shown
    (without.tools / "ansible-vault").unlink()
    (without.tools / "ansible-vault").symlink_to(without.program)
    assert "the tool is" not in ask(without, *line, answers=[], EDITOR="true").shown


def test_install(without: Place) -> None:
    under_git(without, "a.yml diff=ansible-vault\n")
    done = without.run(HOOK, "--install", "--vault-password-file", without.secret("old"))
    ended("the installation", done, 0, f"{THE_TOOL} {without.tools}/ansible-vault (")
    without.put("a.yml", sealed("old", b"old: 1\n"))
    without.run("git", "add", ".")
    without.put("a.yml", sealed("old", b"new: 1\n"))
    ended("the diff", without.run("git", "diff"), 0, "-old: 1\n+new: 1\n")

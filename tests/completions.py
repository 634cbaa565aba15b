"""Ask the shells themselves what they offer: commands, options, and files where a file is expected. As
tools/write_documents makes their lists from the programs' parsers, a few lines show all."""

from pathlib import Path

import pytest

from lib.needs import needs
from lib.paths import COMPANIONS
from shells import SHELLS, typed_in_bash

FILES = {"one.pass", "one.yml", "two.yml", "with a space.pass", "te@m.pass", "-dash.yml", "folder"}
WITH = "ansible-vault-with"
# The starts of command lines, and the commands, options and paths that are offered.
OFFERED: dict[str, set[str]] = {
    "ansible-vault ": {"encrypt", "decrypt", "view", "rekey", "encrypt_string"},
    "ansible-vault encrypt folder/": {"folder/inner.yml"},
    "ansible-vault encrypt ": FILES,
    "ansible-vault encrypt -- -": {"-dash.yml"},
    "ansible-vault view --vault-id dev@one.p": {"dev@one.pass"},
    "ansible-vault view --vault-id dev@te@m.p": {"dev@te@m.pass"},
    "ansible-vault rekey --new-vault-password-file one.p": {"one.pass"},
    "ansible-vault encrypt --output=one.p": {"one.pass"},
    "ansible-vault encrypt --salt=one.p": set(),
    "ansible-vault-with --vault-id one.pass encr": {"encrypt", "encrypt_string"},
    "ansible-vault-with -J encrypt one.yml tw": {"two.yml"},
    "ansible-vault-with encrypt_string --sh": {"--show-input"},
    "ansible-vault-with view -- one.yml -": {"-dash.yml"},
    "ansible-vault-rotate ": FILES,
    "ansible-vault-check --exclude ": set(),
    "ansible-vault-check --ask-vault-pass tw": {"two.yml"},
    "ansible-vault-hook ": FILES,
    "ansible-vault-hook --un": {"--uninstall"},
    "ansible-vault-hook --since ": set(),
    "ansible-vault-hook --install --vault-id dev@one.p": {"dev@one.pass"},
}
OFFERED |= {f"{companion} --vers": {"--version"} for companion in COMPANIONS}
# The aliases through which ansible-vault has the completion of ansible-vault-with, and one that changes nothing. With
# an option, zsh does not expand an alias before it completes.
SHORT, LONG = f"alias ansible-vault={WITH}", f"alias ansible-vault='{WITH} --vault-id one.pass'"
IN_ZSH, OTHER = f"setopt complete_aliases; {SHORT}", f"alias ansible-vault-edit={WITH}"


@pytest.fixture(params=SHELLS)
def shell(request: pytest.FixtureRequest) -> str:
    name: str = request.param
    needs(name)
    return name


@pytest.fixture
def folder(tmp_path: Path, monkeypatch: pytest.MonkeyPatch) -> Path:
    """Return a directory with files, which is also the home directory."""
    monkeypatch.setenv("HOME", str(tmp_path))
    (tmp_path / "folder").mkdir()
    for name in [*FILES - {"folder"}, "folder/inner.yml"]:
        (tmp_path / name).touch()
    return tmp_path


def offered(shell: str, line: str, folder: Path, alias: str = "") -> set[str]:
    """Return what a shell offers, without the option before `=`."""
    matches = SHELLS[shell](line, folder, alias)
    return {each.rpartition("=")[2].replace("\\", "").removesuffix("/") for each in matches}


def test_offered(shell: str, folder: Path) -> None:
    """After a label, bash replaces only the text from the `@` on, the others the whole value. bash begins a word at the
    last `@`, so it offers no path with another one."""
    for line, wanted in OFFERED.items():
        if shell == "bash":
            wanted = {each.replace("dev@", "@") for each in wanted if each.count("@") < 2 or "dev@" not in each}
        assert offered(shell, line, folder, OTHER) == wanted, line
        if line.startswith(f"{WITH} "):
            for alias in [SHORT, LONG, *([IN_ZSH] if shell == "zsh" else [])]:
                assert offered(shell, line.replace(WITH, "ansible-vault"), folder, alias) == wanted, (alias, line)
    assert "--resume" in offered(shell, "ansible-vault-edit --", folder)


# What is typed before a tab in bash, where an alias stands for ansible-vault-with, and the arguments that it receives.
TYPED = {
    "-J edit one.y": ["-J", "edit", "one.yml"],
    "view with": ["view", "with a space.pass"],
    "view --vault-id dev@with": ["view", "--vault-id", "dev@with a space.pass"],
    "view --vault-id dev@~/one.p": ["view", "--vault-id", "dev@HOME/one.pass"],
    "view --vault-id=~/with": ["view", "--vault-id=HOME/with a space.pass"],
    "view --vault-id 'dev@te@m.p": ["view", "--vault-id", "dev@te@m.pass"],
}


@pytest.mark.parametrize("line", TYPED)
def test_typed_in_bash(line: str, folder: Path) -> None:
    needs("bash")
    assert typed_in_bash(line, folder, SHORT) == [word.replace("HOME", str(folder)) for word in TYPED[line]]

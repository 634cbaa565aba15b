"""What somebody types who has only a clone: the README's commands, in order, and then each other target of the
Makefile, at a small size. `rt` is the real one, and nothing is copied into the clone, which these tests use one after
the other.
"""

import re
import shutil
from pathlib import Path

import pytest

from companion_cases.repository import AUTHOR
from lib.clone import PROVING, cloned, git, typed
from lib.installed import PREFIX_FILES, files_below
from lib.needs import needs, needs_ansible
from lib.paths import README
from lib.readme import commands
from makefile import GOALS
from model.vaults import seal

pytestmark = [pytest.mark.newcomer, pytest.mark.timeout(PROVING)]

# Where the README's first screen has the clone, and the programs that it needs.
AT_HOME = "~/ansible-vault/"
NEEDED = ["git", "python3", "env", "bash", "sh"]
# A command of the README that no test types, since it runs these tests.
GATE = ".ci/run"
# The targets that no command here names: the gate, prerequisites of other targets, and what is run before a release.
RUN_BY_OTHERS = {"all", "check", "test", "packages", "portable", "fresh-machine", "releases", "check-long"}
# Commands that show that a target works, and what each leaves or prints.
SMALL = {
    "make CPU=x86-64-v3 bin/ansible-vault && bin/ansible-vault --version": r"ansible-vault \d+\.\d+\.\d+\n\Z",
    "make CPU= planted PLANTED='--faults 1 --mutants 0'": r"\nplant_faults: 1 caught, ",
    "make CPU= mutants MUTANTS=vault_aes/wrong_rotation": r"\n1 passed, 0 failed\n\Z",
    "make CPU= bench QUICK=yes CHART=bin/speed.svg && tail -n 1 bin/speed.svg": r"</svg>\n\Z",
    "make CPU= fuzz SECONDS=5": r"\n[1-9]\d* passed, 0 failed, 0 skipped\n",
    "make CPU= faults SHARE=2000": r"\n[1-9]\d* passed, 0 failed, 0 skipped\n",
    "make CPU= dist && cd bin/dist && sha256sum --check SHA256SUMS": r"^(ansible-vault-.*\.tar\.gz: OK\n){2}\Z",
    "tools/write_documents && git diff --stat": r"^\Z",
    "tools/picture.py bin/ansible-vault && git diff --stat": r"^\Z",
    "tools/files_to_read": r"^For the theorem: \d+ lines\n(.*\n)+For the other contracts: \d+ lines\n( +\d+ .*\n)+\Z",
    "tests/store_texts bin/ansible-vault && git diff --stat": r"^\Z",
    "make lint": r"\nlint: [1-9]\d* passed, 0 failed\n\Z",
}


@pytest.fixture(scope="module")
def clone(tmp_path_factory: pytest.TempPathFactory) -> Path:
    return cloned(tmp_path_factory)


@pytest.fixture(scope="module")
def prefix(clone: Path) -> Path:
    return clone.with_name("prefix")


def test_first_screen(clone: Path, tmp_path: Path) -> None:
    """The commands need only git and Ansible's tool. One shows a vault's history and changes nothing, and the others
    set up git diff and the hook."""
    show, install, mark = commands(README.read_text())[:3]
    assert AT_HOME in show and AT_HOME in install
    repository, folder = tmp_path / "repository", tmp_path / "bin"
    for each in (repository, folder):
        each.mkdir()
    for name in NEEDED:
        (folder / name).symlink_to(shutil.which(name) or name)
    (folder / "ansible-vault").symlink_to(needs_ansible())
    variables = AUTHOR | {"HOME": str(clone.parent), "PATH": str(folder), "GIT_CONFIG_NOSYSTEM": "1"}
    password = "any password"
    (clone.parent / ".vault_pass").write_text(password)
    git("init", "--quiet", at=repository)
    for port in (b"port: 1\n", b"port: 2\n", b"port: 3\n"):
        (repository / "vault.yml").write_bytes(seal(password.encode(), port))
        git("add", ".", at=repository)
        git("commit", "--quiet", "--message=port", at=repository)
    before = files_below(repository)
    printed = typed(show, repository, **variables)
    changes = ["-port: 2", "+port: 3", "-port: 1", "+port: 2", "+port: 1"]
    assert re.findall(r"^[-+]port: .$", printed, re.MULTILINE) == changes
    assert files_below(repository) == before and git("status", "--short", at=repository) == ""
    assert "the tool is Ansible's" in typed(install, repository, **variables)
    typed(mark, repository, **variables)
    (repository / "vault.yml").write_bytes(seal(password.encode(), b"port: 4\n"))
    assert typed("git diff", repository, **variables).endswith("-port: 3\n+port: 4\n")
    (repository / "vault.yml").write_text("port: 4\n")
    refused = typed("git add . && ! git commit --quiet --message=plaintext", repository, **variables)
    assert "vault.yml is not encrypted" in refused, refused


def test_readme(clone: Path, prefix: Path) -> None:
    """Run the other commands without a prompt. A variable alone makes `make install` use another prefix."""
    needs("rt")
    others = [command for command in commands(README.read_text())[3:] if command != GATE]
    printed = {command: typed(command, clone, PREFIX=str(prefix)) for command in others}
    assert {"make demo", "make install", "make package"} <= printed.keys()
    assert PREFIX_FILES <= files_below(prefix), "make install"
    assert [each.name for each in (clone / "bin").glob("*.deb")] != [], "make package"


@pytest.mark.parametrize("command, wanted", SMALL.items(), ids=SMALL)
def test_target(clone: Path, command: str, wanted: str) -> None:
    needs("rt")
    printed = typed(command, clone)
    assert re.search(wanted, printed), printed


def test_uninstall_and_clean(clone: Path, prefix: Path) -> None:
    needs("rt")
    typed("make uninstall", clone, PREFIX=str(prefix))
    assert files_below(prefix) == set()
    typed("make clean", clone)
    assert git("status", "--short", "--ignored", at=clone) == "", "only what git tracks is left"


def test_all_are_typed() -> None:
    """Some test runs each target of the Makefile."""
    typed_words = " ".join([*commands(README.read_text()), *SMALL, "make uninstall make clean"])
    assert {goal for goal in GOALS if not re.search(rf"(?<![-\w]){goal}\b", typed_words)} == RUN_BY_OTHERS

"""The testkit: its vectors are made anew, name rules of docs/formats.md, and are answered as expected."""

import os
import re
import runpy
import shutil
import subprocess
import sys
from collections import Counter
from pathlib import Path

import pytest

from lib.needs import needs_pyyaml
from lib.paths import COMPANIONS, ROOT
from model.faults import Fault

TESTKIT = ROOT / "testkit"
VECTORS = {path.name: path.read_bytes() for path in (TESTKIT / "vectors").iterdir()}
FIELDS = {
    name: dict(line.split(": ", 1) for line in content.partition(b"\n\n")[0].decode().splitlines())
    for name, content in VECTORS.items()
}
ENVELOPES = [name for name, fields in FIELDS.items() if "form" not in fields]
# Commands for a shell, which gets the program, a password's file and an envelope's.
DECRYPT = 'exec "$0" decrypt --vault-password-file "$1" < "$2"'
PRINTING = 'printf x; exec "$0" view --vault-password-file "$1" "$2"'


def run(*words: str) -> list[str]:
    """Run the testkit, and return the lines that it prints."""
    command = [sys.executable, "-B", str(TESTKIT / "run"), *words]
    done = subprocess.run(command, stdout=subprocess.PIPE, text=True)
    lines = done.stdout.splitlines()
    assert done.returncode == (0 if lines[-1].endswith(" 0 not") else 1), f"the status with {words}"
    return lines


def names_of(lines: list[str]) -> list[str]:
    """Return the names of the vectors in these lines."""
    return [line.partition(":")[0] for line in lines]


def test_made(tmp_path: Path) -> None:
    pytest.importorskip("cryptography")
    shutil.copytree(TESTKIT, tmp_path / "testkit", ignore=shutil.ignore_patterns("vectors"))
    folders: dict[str, list[str]] = {"testkit/vectors": [], "other": ["other"]}
    for folder, words in folders.items():
        subprocess.run([sys.executable, "-B", "testkit/make", *words], cwd=tmp_path, check=True)
        made = {path.name: path.read_bytes() for path in (tmp_path / folder).iterdir()}
        shutil.rmtree(tmp_path / folder)
        assert made.keys() == VECTORS.keys()
        assert [name for name in made if made[name] != VECTORS[name]] == []
    assert [path.name for path in tmp_path.iterdir()] == ["testkit"], "nothing else is made"


@pytest.mark.parametrize("words", (["--help"], ["one", "two"]), ids=" ".join)
def test_usage(tmp_path: Path, words: list[str]) -> None:
    """Help makes no vectors, and nor does a second directory."""
    pytest.importorskip("cryptography")
    command = [sys.executable, "-B", str(TESTKIT / "make"), *words]
    done = subprocess.run(command, cwd=tmp_path, capture_output=True, text=True)
    assert (done.returncode, done.stdout) == (1, "") and "testkit/make [DIRECTORY]\n" in done.stderr, done
    assert [*tmp_path.iterdir()] == []


def test_answers(program: str) -> None:
    """Both commands that read, one of a file, and the other of standard input."""
    wanted = [f"{len(ENVELOPES)} as expected, 0 not"]
    view = [program, "view", "--vault-password-file", "{password}", "{file}"]
    assert run("--strict", "--", *view) == wanted, "view"
    decrypt = ["sh", "-c", DECRYPT, program, "{password}", "{file}"]
    assert run("--strict", "--", *decrypt) == wanted, "decrypt"


def test_output_before_a_refusal(program: str) -> None:
    command = ["sh", "-c", PRINTING, program, "{password}", "{file}"]
    *different, _ = run("--strict", "--kind", "tag", "--", *command)
    assert names_of(different) == sorted(name for name in ENVELOPES if name.startswith("tag-")), "all refusals differ"


def test_labels(program: str) -> None:
    """Each envelope has the label that its vector names, and no other. An `@` would end the label of an option."""
    required = ["--", program, "view", "--require-id-match", "--vault-id"]
    *different, _ = run("--strict", *required, "{label}@{password}", "{file}")
    assert names_of(different) == ["label-at-sign"], different
    *answers, _ = run("--all", *required, "{label}x@{password}", "{file}")
    assert [line for line in answers if ": refused, expected: " not in line] == []


NO_SECRET = "no secret decrypts this vault"


def test_other_refusals() -> None:
    """With --strict, a refusal has to say what the vector expects."""
    words = ["--kind", "tag", "--", "sh", "-c"]
    right = f"echo ERROR! {NO_SECRET} >&2; exit 1"
    for command, is_right in {right: True, "exit 1": False, "echo ERROR! input is damaged >&2; exit 1": False}.items():
        refused = [name for name in ENVELOPES if name.startswith("tag-") and FIELDS[name]["expect"] == NO_SECRET]
        *different, _ = run("--strict", *words, command)
        assert {*refused}.isdisjoint(names_of(different)) == is_right, command
        *different, _ = run(*words, command)
        assert {*refused}.isdisjoint(names_of(different)), "without --strict"


def test_no_answer(monkeypatch: pytest.MonkeyPatch, capsys: pytest.CaptureFixture[str]) -> None:
    """A command that does not end is no refusal."""
    namespace = runpy.run_path(str(TESTKIT / "run"))
    main = namespace["main"]
    monkeypatch.setitem(main.__globals__, "SECONDS", 0.1)
    monkeypatch.setattr(sys, "argv", ["run", "--kind", "password-file", "--", "sleep", "60"])
    assert main() == 1
    *answers, last = capsys.readouterr().out.splitlines()
    assert {line.partition(": ")[2].partition(",")[0] for line in answers} == {"no answer"}, answers
    assert last == f"0 as expected, {len(answers)} not"


def test_rules() -> None:
    """Each vector names a section of docs/formats.md, and each refusal is a fault. The README counts the vectors of
    each kind."""
    sections = {*re.findall(r"^##+ (.*)$", (ROOT / "docs" / "formats.md").read_text(), re.MULTILINE)}
    assert {re.sub(r", \d$", "", fields["rule"]) for fields in FIELDS.values()} <= sections
    texts = {fault.line.decode()[len("ERROR! ") : -1] for fault in Fault}
    assert {fields["expect"] for fields in FIELDS.values()} <= texts | {"success"}
    counts = dict(re.findall(r"^\| `(\w+)` \| (\d+) \|", (TESTKIT / "README.md").read_text(), re.MULTILINE))
    assert counts == {kind: str(count) for kind, count in Counter(name.partition("-")[0] for name in FIELDS).items()}


# `--value` takes no alias, and in JSON the key below `secret` too.
NO_VALUES = ["yaml-alias", "yaml-json", "yaml-json-escapes"]


def test_values(program: str, tmp_path: Path) -> None:
    """A companion reads the values in YAML and JSON."""
    needs_pyyaml()
    (tmp_path / "ansible-vault").symlink_to(program)
    textconv = ["env", f"PATH={tmp_path}:{os.environ['PATH']}", str(COMPANIONS["ansible-vault-textconv"])]
    options = ["--vault-password-file", "{password}", "--value", "secret", "{file}"]
    *different, _ = run("--form", "yaml", "--", *textconv, *options)
    assert names_of(different) == NO_VALUES, different


# Commands that answer the vectors of salts wrongly, and what the testkit says of them.
WRONG = {"cat {file}": {"other plaintext", "accepted"}, "exit 1": {"refused"}, "kill -9 $$": {"killed by signal 9"}}


@pytest.mark.parametrize("command", WRONG)
def test_wrong_answers(command: str) -> None:
    shell = ["sh", "-c", command]
    *answers, _ = run("--all", "--kind", "salt", "--", *shell)
    assert {line.partition(": ")[2].partition(", expected: ")[0] for line in answers} == WRONG[command]


@pytest.mark.parametrize("options", (["--kind", "pepper"], ["--form", "toml"], []), ids=" ".join)
def test_no_vectors(tmp_path: Path, options: list[str]) -> None:
    """Nothing is answered as expected: no vector has the kind or the form, or there is none."""
    shutil.copy(TESTKIT / "run", tmp_path)
    (tmp_path / "vectors").mkdir()
    script = TESTKIT / "run" if options else tmp_path / "run"
    done = subprocess.run([sys.executable, "-B", str(script), *options, "--", "true"], capture_output=True, text=True)
    assert done.returncode == 2 and done.stdout == "", done
    assert ": there are no vectors of " in done.stderr, "the reason"

"""Password files that are programs, compared with Ansible's own tool."""

from pathlib import Path
from typing import NamedTuple

import pytest

from companion_cases import CHECK, PASSWORDS, TEXT, TEXTCONV, WITH, Place, check_answer, decrypted, first_line, sealed
from companion_cases.terminal import READING, ask
from lib.needs import needs_root

# Options that name scripts, and the arguments that each script gets.
STARTS = {
    "--vault-id=dev@../client": "",
    "--vault-id=dev@../keys-client.d.sh": "",
    "--vault-id=a b@~/keys-client.py": " --vault-id a b",
    "--vault-id=@../keys-client": "",
    "--vault-password-file=../keys-client": " --vault-id default",
}


@pytest.mark.parametrize("option, arguments", STARTS.items())
def test_how_they_start(place: Place, request: pytest.FixtureRequest, option: str, arguments: str) -> None:
    """Messages of a client are shown only if it fails."""
    name = option.rpartition("/")[2]
    place.script('echo hello >&2; echo "$0" "$@" >> ../started; cat ../secrets/dev', name)
    place.put("a.yml", sealed("dev"))
    done = place.run("setsid", "--wait", WITH, "view", option, "a.yml")
    errors = "" if "keys-client" in name and not name.endswith(".d.sh") else "hello\n"
    started = (place.path / "started").read_text()
    check_answer("the view", done, output=TEXT.decode(), errors=errors)
    assert started == f"{place.path}/{name}{arguments}\n", "the script and its arguments"
    ansible = request.getfixturevalue("ansible_runs")
    _, output, _ = ansible.run(["view", option, "a.yml"], place.tree, place.environment)
    assert TEXT in output and (place.path / "started").read_text() == 2 * started, "as Ansible's tool"


NO_PROGRAM = "this script cannot be run: Exec format error; if it is not a script, run `chmod -x ../data`"
SPACE = "the password of this script begins or ends with white space, which a file cannot have"


class Failing(NamedTuple):
    """The name and the text of a script that fails, and why. A client's own messages are shown in one line."""

    name: str
    text: str
    why: str


FAILING = [
    Failing(name="data", text="no script", why=NO_PROGRAM),
    Failing(name="script", text="#!/bin/sh\nkill -9 $$", why="signal 9 ended this script"),
    Failing(name="script", text="#!/bin/sh\nprintf ' word'", why=SPACE),
    Failing(
        name="keys-client",
        text="#!/bin/sh\nprintf 'no\\n\\033[2J' >&2; exit 9",
        why="this script ended with status 9: 'no \\x1b[2J'",
    ),
    Failing(
        name="keys-client",
        text="#!/bin/sh\nprintf 'gr\\366\\337e' >&2; exit 9",
        why="this script ended with status 9: gr\ufffd\ufffde",
    ),
    Failing(name="script", text="#!/bin/sh\nprintf 'word\\t\\n'", why=SPACE),
]


@pytest.mark.parametrize("name, text, why", FAILING)
def test_those_that_fail(place: Place, name: str, text: str, why: str) -> None:
    place.put("a.yml", sealed("dev"))
    place.put(f"../{name}", f"{text}\n".encode(), 0o755)
    done = place.run(CHECK, "--vault-id", f"dev@../{name}", "a.yml")
    check_answer("the check", done, 1, errors=f"{CHECK}: dev@../{name}: {why}\n")
    shown = place.run(TEXTCONV, "--vault-id", f"../{name}", *place.by_file("dev"), "a.yml")
    told = f"{TEXTCONV}: ../{name}: {why}; it is ignored\n"
    check_answer("another secret is there", shown, output=first_line() + TEXT.decode(), errors=told)


# What a script prints around the password, which it prints in place of %s.
PRINTED = ["%s", "%s\\n", "%s\\r\\n", "\\n%s", "\\r\\n\\n%s\\n\\r\\n\\n", "\\r%s\\r"]


@pytest.mark.parametrize("printed", PRINTED)
def test_line_ends(place: Place, printed: str) -> None:
    """Line ends around the password do not count."""
    place.put("a.yml", sealed("dev"))
    place.script(f'printf "{printed}" "$(cat ../secrets/dev)"')
    done = place.run(CHECK, "--vault-id", "../script", "a.yml")
    check_answer("the check", done, output="a.yml: default: decrypted by ../script\n1 decrypted, 0 failed\n")


@pytest.mark.parametrize("mode", [0o600, 0o644, 0o700, 0o610, 0o601, 0o755], ids=oct)
def test_modes(place: Place, mode: int) -> None:
    """A file that anybody may execute is a script."""
    needs_root()
    place.put("a.yml", sealed("dev"))
    place.put("../keys", b"#!/bin/sh\ncat ../secrets/dev\n", mode)
    done = place.run(CHECK, "--vault-id", "../keys", "a.yml")
    if mode & 0o111:
        check_answer("it is run", done, output="a.yml: default: decrypted by ../keys\n1 decrypted, 0 failed\n")
    else:
        check_answer("it is read", done, 1, errors=f"{CHECK}: ../keys: a password file is a script\n")


def test_pipe_that_may_be_executed(place: Place) -> None:
    """It is read like any other pipe."""
    place.put("a.yml", sealed("dev"))
    place.shell("mkfifo -m 755 ../pipe")
    done = place.shell(f"cat ../secrets/dev > ../pipe & {CHECK} --vault-id ../pipe a.yml")
    check_answer("the check", done, output="a.yml: default: decrypted by ../pipe\n1 decrypted, 0 failed\n")


def test_standard_input(place: Place) -> None:
    """A script may ask at the terminal through its standard input. Any other input is left to the companion."""
    place.put("a.yml", sealed("dev"))
    place.script("printf 'Which? ' > /dev/tty; read -r word; echo \"$word\"", "asking")
    words = [*READING, *f"{WITH} view --vault-password-file ../asking a.yml".split()]
    session = ask(place, *words, answers=[("Which? ", PASSWORDS["dev"] + b"\n")])
    assert (session.returncode, session.stdout, session.stderr) == (0, TEXT.decode(), ""), "a terminal"
    place.script("cat > ../swallowed; cat ../secrets/dev", "asking")
    encrypt = [WITH, "encrypt", "--vault-id", "@../asking", "--output", "b.yml"]
    assert place.run_on(TEXT, *encrypt).returncode == 0
    assert decrypted("dev", place.get("b.yml")) == TEXT, "all of it is encrypted"
    assert (place.path / "swallowed").read_bytes() == b"", "it reads nothing"


def test_signals(place: Place) -> None:
    """A signal ends the script, too, and then the companion, as it would without a script."""
    place.put("a.yml", sealed("dev"))
    place.script("echo $$ > ../sleeping; kill -TERM $PPID; exec sleep 600")
    done = place.run(CHECK, "--vault-password-file", "../script", "a.yml")
    check_answer("it ends by the signal", done, -15)
    # A zombie has no command line.
    line = Path("/proc", (place.path / "sleeping").read_text().strip(), "cmdline")
    assert not line.exists() or line.read_bytes() == b"", "and nothing goes on"

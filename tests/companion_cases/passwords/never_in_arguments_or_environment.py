"""No secret is in the arguments and the environment of programs, or on disks, and no program but the tool gets one."""

import re
import sys
import resource

import pytest

from companion_cases import CHECK, EDIT, HOOK, MERGE, PASSWORDS, ROTATE, TEXT, TEXTCONV, WITH, Place, block, ended
from companion_cases import sealed, versions
from companion_cases.repository import add_and_commit, under_git
from companion_cases.terminal import ask
from lib.needs import needs

# Notes what other processes can see of a run of the program, and its limit for core dumps.
NOTE = "{ tr '\\0' '\\n' < /proc/$$/cmdline; tr '\\0' '\\n' < /proc/$$/environ; } >> ../seen; ulimit -c >> ../cores"


def test_words_and_environment(place: Place) -> None:
    """A password from a script, a pipe or the terminal is in no file, and neither program nor editor dumps core."""
    if resource.getrlimit(resource.RLIMIT_CORE)[1] == 0:
        pytest.skip("the hard limit of core dumps is 0 here")
    place.put("a.yml", sealed("old"))
    place.wrap_tool(NOTE)
    place.environment["EDITOR"] = place.script(NOTE, "editor")
    place.script("cat ../secrets/old")
    line = f'ulimit -S -c "$(ulimit -H -c)"; {EDIT} {{}} a.yml'
    for source in ("../script", "<(cat ../secrets/old)"):
        ended(source, place.shell(line.format(f"--vault-password-file {source}"), "bash"), 0)
    answers = [("Vault password: ", PASSWORDS["old"] + b"\n")]
    assert ask(place, "bash", "-c", line.format("-J"), answers=answers).returncode == 0
    seen = (place.path / "seen").read_bytes()
    assert seen.count(b"--vault-id=default@/dev/fd/") == 3, "the runs were seen"
    assert [each for each in (*PASSWORDS.values(), TEXT.strip()) if each in seen] == [], "no secret is seen"
    assert {*(place.path / "cores").read_text().split()} == {"0"}, "core dumps are disabled"
    files = {path for path in place.path.rglob("*") if path.is_file() and path.parent != place.secrets}
    assert [path for path in files if PASSWORDS["old"] in path.read_bytes()] == [], "no file has the password"


# What shells set.
OF_SHELLS = {"_", "OLDPWD", "PWD", "SHLVL"}
# Command lines, and whether a password is typed.
STARTS = {f"{EDIT} -J": True, f"{WITH} edit": True, f"{WITH} create": True, f"{WITH} edit --vault-id ../script": False}


@pytest.mark.parametrize("line, is_typed", STARTS.items())
def test_inherited_environment(place: Place, line: str, is_typed: bool) -> None:
    """An editor and a password script get the environment that the companion got."""
    note = "cat /proc/$$/environ >> ../seen; printf '\\n' >> ../seen"
    place.script(f"{note}; cat ../secrets/old")
    if "create" not in line:
        place.put("a.yml", sealed("old"))
    asked = ["New Vault password: ", "Confirm New Vault password: "] if "create" in line else ["Vault password: "]
    answers = [(question, PASSWORDS["old"] + b"\n") for question in asked] if is_typed else []
    place.environment["EDITOR"] = place.script(f'{note}; echo more >> "$1"', "editor")
    session = ask(place, *line.split(), "a.yml", answers=answers)
    assert session.returncode == 0, session
    runs = (place.path / "seen").read_bytes().split(b"\n")[:-1]
    assert len(runs) == 2 - is_typed
    for run in runs:
        seen = dict(item.split("=", 1) for item in run.decode().strip("\0").split("\0"))
        assert {name: seen[name] for name in seen.keys() - OF_SHELLS} == {
            name: text for name, text in place.environment.items() if name not in OF_SHELLS
        }


# The texts of three versions, with words that must stay hidden.
TEXTS = [b"one: horse\nx: 1\ny: 2\ntwo: horse\n", b"one: staple\nx: 1\ny: 2\ntwo: horse\n"]
TEXTS += [b"one: horse\nx: 1\ny: 2\ntwo: battery\n"]
HIDDEN = ["horse", "staple", "battery"]
# Where plaintext is written, without the random parts of paths.
PIPE, VERSION = "pipe:[", "/memfd:version"
BESIDE, PRIVATE = "/tree/.ansible-vault-", "/runtime/"
OLD, NEW = "--vault-password-file ../secrets/old", "--new-vault-password-file ../secrets/new"
RUNS = {
    f"{EDIT} {OLD} a.yml": {PIPE, PRIVATE},
    f"{CHECK} {OLD} a.yml": {PIPE},
    f"{TEXTCONV} {OLD} a.yml": {PIPE},
    f"{ROTATE} {OLD} {NEW} a.yml": {PIPE},
    f"{MERGE} {OLD} ../versions/base-a.yml a.yml ../versions/theirs-a.yml a.yml": {PIPE, VERSION},
    f"{WITH} encrypt {OLD} plain.yml": {PIPE},
    f"{WITH} rekey {OLD} {NEW} a.yml": set(),
    f"{WITH} decrypt {OLD} a.yml": {PIPE, BESIDE},
}
# System calls that start a program, write something, or create something.
STARTED = "execve"
WRITING = "write,pwrite64,writev,sendfile,copy_file_range,splice"
CREATING = "openat,open,creat,mkdir,mkdirat,memfd_create"


def put_versions(place: Place) -> None:
    versions(place, "a.yml", *(sealed("old", text) for text in TEXTS))
    place.put("plain.yml", TEXTS[0])
    place.environment["EDITOR"] = place.script('sed -i s/one/three/ "$1"', "editor")


def lines_with(lines: list[str], words: list[str]) -> list[str]:
    return [line for line in lines if any(word in line for word in words)]


def find_writes(place: Place, lines: list[str], hidden: list[str]) -> set[str]:
    """Return where a hidden text was written."""
    call = re.compile(rf"(?:{WRITING.replace(',', '|')})\(\d+<(?:{place.path})?(.*?)>(?:\(deleted\))?, (.*)")
    random = r"(?<=pipe:\[).*|(?<=/\.ansible-vault-).*|(?<=/runtime/).*"
    places = set()
    for line in lines_with(lines, hidden):
        found = call.search(line)
        if found and lines_with([found[2]], hidden):
            places.add(re.sub(random, "", found[1]))
    return places


def find_created(place: Place, lines: list[str], places: set[str]) -> list[str]:
    """Return the calls that create something else than a private file in one of these places."""
    allowed = [rf'"{place.path}{BESIDE}.*O_EXCL.*, 0600\)', '"/dev/null"']
    if PRIVATE in places:
        allowed += [f'"{place.path}{PRIVATE}', '"/dev/tty"']
    created = [line for line in lines if re.search("O_CREAT|O_TMPFILE|mkdir", line)]
    return [line for line in created if not re.search("|".join(allowed), line)]


@pytest.mark.parametrize("line, places", RUNS.items())
def test_plaintext(place: Place, line: str, places: set[str]) -> None:
    """Plaintext is written only to memory, by `decrypt` to a private file, and by an edit to its private directory."""
    needs("strace", "git")
    put_versions(place)
    before = place.files()
    passwords = [each.decode() for each in PASSWORDS.values()]
    companion, *words = line.split()
    done, lines = place.traced(f"-vy -s 65536 -e trace={STARTED},{WRITING},{CREATING}", companion, *words)
    assert done.returncode == 0, done.stderr
    started = [line for line in lines if f" {STARTED}(" in line]
    assert len(started) > 2, "its processes are seen"
    assert lines_with(started, HIDDEN + passwords) == [], "no program is given a secret"
    assert find_writes(place, lines, passwords) == {"/memfd:password"}, "where passwords are written"
    assert find_writes(place, lines, HIDDEN) == places, "where plaintext is written"
    assert find_created(place, lines, places) == [], "nothing else is created"
    assert place.names() == sorted(before), "nothing is left"
    only_reads = companion in (CHECK, TEXTCONV)
    assert (place.files() == before) == only_reads, "it does its work"


# What a commit of a vault and of a value becomes: other files, with a text that must stay hidden.
PLAIN = TEXTS[0]
LEAKS = {
    "a vault in plaintext": {"a.yml": PLAIN},
    "a vault in plaintext elsewhere": {"a.yml": None, "a.yaml": PLAIN},
    "a copy beside a vault": {"a.yml.bak": PLAIN},
    "a value in plaintext": {"b.yml": b"key: horse\n"},
    "a value in plaintext elsewhere": {"b.yml": None, "c.yml": b"key: horse\n"},
    "a tag alone": {"b.yml": b"key: !vault horse\n"},
    "a tag before several lines": {"b.yml": b"key: !vault |\n  horse\n  staple\n"},
    "an envelope in plaintext lines": {"b.yml": b"key: !vault |\n  $ANSIBLE_VAULT;1.1;AES256\n  horse\n"},
    "an open bracket": {"b.yml": b"key: [horse\n"},
    "an open quote": {"b.yml": b'key: "horse\n'},
    "an unknown escape": {"b.yml": b'key: "\\horse"\n'},
    "an unknown alias": {"b.yml": b"key: *horse\n"},
    "an unknown tag": {"b.yml": b"key: !horse! battery\n"},
    "a tab": {"b.yml": b"key:\n\thorse: staple\n"},
    "a colon too many": {"b.yml": b"key: horse: staple\n"},
    "no UTF-8": {"b.yml": b"key: horse\xff\n"},
    "a control character": {"b.yml": b"key: horse\x01\n"},
    "a conflict": {"b.yml": b"<<<<<<< ours\nkey: horse\n=======\nkey: staple\n>>>>>>> theirs\n"},
    "an attribute": {".gitattributes": b"horse[ diff=ansible-vault\n*.yml diff=ansible-vault\n", "a.yml": PLAIN},
}
IN_LOGS = [HOOK, f"{HOOK} --all", f"{HOOK} --since HEAD~1", f"{CHECK} {OLD} .", f"{CHECK} {OLD} --json ."]
IN_LOGS += [f"{CHECK} --list .", f"{ROTATE} {OLD} {NEW} --dry-run .", f"{ROTATE} {OLD} {NEW} ."]


@pytest.mark.parametrize("files", LEAKS.values(), ids=LEAKS)
def test_logs(place: Place, files: dict[str, bytes | None]) -> None:
    """What the commands of a pipeline print may be read by others. It has no plaintext, even of what they refuse."""
    under_git(place, "*.yml diff=ansible-vault\n")
    place.put("a.yml", sealed("old", PLAIN))
    place.put("b.yml", block("old", b"horse", name="key"))
    add_and_commit(place)
    for name, content in files.items():
        if content is None:
            (place.tree / name).unlink()
        else:
            place.put(name, content)
    place.shell("git add -A")
    staged, *others = IN_LOGS
    runs = [place.shell(staged)]
    add_and_commit(place)
    runs += [place.shell(line) for line in others]
    assert runs[0].returncode == 1, "the hook refuses it"
    for line, done in zip(IN_LOGS, runs):
        output = done.stdout + done.stderr
        assert "Traceback" not in output, (line, output)
        assert [word for word in HIDDEN if word in output] == [], (line, output)


# Command lines that only show a text, and others.
SHOWING = [f"{TEXTCONV} {OLD} a.yml", f"{TEXTCONV} {OLD} values.yml", f"{WITH} view {OLD} a.yml"]
OTHERS = [f"{TEXTCONV} {OLD} --value secret values.yml", *(line for line in RUNS if line not in SHOWING)]


@pytest.mark.parametrize("is_on_path", [False, True], ids=["beside", "on PATH"])
@pytest.mark.parametrize("line", SHOWING + OTHERS)
def test_asked(place: Place, line: str, is_on_path: bool) -> None:
    """A tool on PATH is asked for its version once, before it gets a password. The one beside a companion was installed
    with it, so it is not asked before a text is only shown."""
    put_versions(place)
    place.put("values.yml", block("old"))
    place.wrap_tool('echo "$1" >> ../seen')
    if is_on_path:
        place.shell("mkdir ../first && mv ../tools/ansible-vault ../first")
        place.environment["PATH"] = f"{place.path}/first:{place.environment['PATH']}"
    done = place.shell(line)
    assert done.returncode == 0, done.stderr
    first, *others = (place.path / "seen").read_text().split()
    is_asked = is_on_path or line in OTHERS
    assert (first == "--version") == is_asked, f"its first run is {first}"
    assert "--version" not in others, "it is asked once"


NO_TOOLS = ["mkdir {}", "echo > {}", "ln -s nowhere {}", "ln -s ansible-vault {}", f"ln -s ../tools/{CHECK} {{}}", ":"]


@pytest.mark.parametrize("make", NO_TOOLS)
def test_on_the_path(place: Place, make: str) -> None:
    """What cannot be the tool is passed over, beside a companion and on PATH."""
    place.put("a.yml", sealed("old"))
    lines = ["rm ../tools/ansible-vault", "mkdir ../first ../last", make.format("../first/ansible-vault")]
    place.shell("\n".join([*lines, make.format("../tools/ansible-vault")]))
    words = [sys.executable, "-IB", str(place.tools / CHECK), *place.by_file("old"), "."]
    path = f"{place.path}/first:{place.tools}:{place.path}/last"
    ended("none", place.run(*words, PATH=path), 1, "there is no ansible-vault beside this program or on PATH")
    (place.path / "last/ansible-vault").symlink_to(place.program)
    ended("the tool", place.run(*words, PATH=path), 0, "1 decrypted")

"""Too few processes, or too little memory: a companion says so in a line, or does its work. No file is torn."""

import re
import shlex
import shutil
import sys
from random import Random

import pytest

from ansible_vault_companions import memory
from companion_cases import CHANGE, CHANGED, CHECK, COMPANIONS, CONFLICT, EDIT, HOOK, MERGE, ROTATE, TEXT, TEXTCONV
from companion_cases import WITH, Companions, Done, Place
from companion_cases import (
    block,
    check_answer,
    edit,
    ended,
    run_changed,
    sealed,
    silent,
    summary,
    texts,
    to_new,
    versions,
)
from lib.needs import needs

NAMES = (EDIT, ROTATE, MERGE, CHECK, TEXTCONV, HOOK, WITH)
LIMITS = 8
# The status of `timeout` for a run that did not end.
ENDED = 124
# Others start threads, and Python may wait forever for one that lacks the memory to begin.
WITHOUT_THREADS = (EDIT, MERGE, TEXTCONV, HOOK, WITH)
# In kilobytes: from less than Python needs to more than any companion does.
LEAST, MOST = 8_000, 120_000
START = f"import sys; sys.path.insert(0, {str(COMPANIONS)!r}); import ansible_vault_companions.startup"
# Python reads the program before the first statement, and has a bit of memory left.
READ = START + "; compile(open({!r}).read(), '', 'exec'); bytes(1 << 20)"
# Python writes this itself, without a line end, if memory runs out while it calls sys.unraisablehook.
NO_MEMORY_FOR_HOOK = re.compile(
    "Exception ignored (?:while building sys.unraisablehook arguments|in sys.unraisablehook: )"
)


def prepare(place: Place, name: str) -> list[str]:
    """Write some vaults that anybody may replace, and return a command line of the companion."""
    for number in range(3):
        place.put(f"folder/{number}.yml", sealed("old"), 0o666)
    merge = versions(place, "a.yml", sealed("old"), sealed("old", CHANGED), sealed("old", TEXT + b"more: 1\n"))
    place.environment["EDITOR"] = place.script(CHANGE, "editor")
    place.shell("git init -q && git add . && git -c user.name=a -c user.email=b commit -qm c; chmod -R a+rwX ..")
    place.environment |= {"GIT_CONFIG_COUNT": "1", "GIT_CONFIG_KEY_0": "safe.directory", "GIT_CONFIG_VALUE_0": "*"}
    lines = {
        EDIT: [EDIT, *place.by_file("old"), "a.yml"],
        ROTATE: [ROTATE, *to_new(place), "."],
        MERGE: [MERGE, *place.by_file("old"), *merge],
        CHECK: [CHECK, *place.by_file("old"), "."],
        TEXTCONV: [TEXTCONV, *place.by_file("old"), "a.yml"],
        HOOK: [HOOK, "--since", "HEAD"],
        WITH: [WITH, "rekey", *to_new(place), "a.yml"],
    }
    return lines[name]


def check(place: Place, name: str, done: Done, limit: int) -> None:
    """Check that a run says why it failed, if it did, and that the vaults are whole."""
    lines = NO_MEMORY_FOR_HOOK.sub("", done.stderr).splitlines()
    assert "Traceback" not in done.stderr and (done.returncode == 0 or lines), (limit, done)
    assert done.returncode != ENDED, (limit, done)
    # git and the editor are programs of their own.
    assert all(line.startswith((name, "git", "fatal: ", "error: ", "sh: ", "--resume ", "  ")) for line in lines), done
    check_vaults(place, limit)


def check_vaults(place: Place, limit: int) -> None:
    """Check that each vault is whole, under one of the passwords, and that nothing is left beside it."""
    vaults = [place.get(path) for path in ("a.yml", "folder/0.yml", "folder/1.yml", "folder/2.yml")]
    whole = [pair for vault in vaults for pair in zip(texts(vault, "old"), texts(vault, "new"))]
    assert len(whole) >= len(vaults) and all(any(pair) for pair in whole), (limit, vaults)
    assert [path for path in place.names() if ".new" in path] == [], limit


@pytest.mark.parametrize("name", NAMES)
def test_processes(cases: Companions, git: None, name: str) -> None:
    needs("prlimit", "setpriv")
    for limit in range(1, LIMITS):
        place = cases.place()
        words = prepare(place, name)
        check(place, name, place.as_nobody("prlimit", f"--nproc={limit}", *words), limit)


@pytest.mark.parametrize("name", WITHOUT_THREADS)
def test_memory(cases: Companions, git: None, pytestconfig: pytest.Config, name: str) -> None:
    """Once Python itself can start, and read a module and the program."""
    needs("prlimit")
    random = Random(f"{pytestconfig.getoption('--seed')} {name}")
    for limit in [random.randrange(LEAST, MOST) for _ in range(2 * LIMITS)]:
        place = cases.place()
        words, limiting = prepare(place, name), ["prlimit", f"--as={1024 * limit}"]
        start = place.run(*limiting, "python3", "-IBc", READ.format(str(COMPANIONS / name)))
        if (start.returncode, start.stderr) == (0, ""):
            check(place, name, place.run("timeout", "30", *limiting, *words), limit)


@pytest.mark.parametrize("name, why", [(CHECK, "./long.yml: "), (HOOK, "")], ids=[CHECK, HOOK])
def test_limit_of_memory(place: Place, git: None, name: str, why: str) -> None:
    """What takes more than the limit, which is lower here, ends in a line."""
    place.put("long.yml", block("old") + b"x: [%s]\n# " % (b"{a: 1}, " * 20_000) + b"x" * 16_000_000)
    place.shell("git init -q && git add .")
    words = [*place.by_file("old"), "."] if name == CHECK else []
    change = "from ansible_vault_companions import memory\nmemory.MOST = 56 << 20"
    check_answer("the run", run_changed(place, name, change, words), 1, errors=f"{name}: {why}out of memory\n")


def test_memory_of_programs(place: Place) -> None:
    """A program that the user has chosen has as much memory as without a companion, and others have its limit."""
    place.put("a.yml", sealed("old"))
    script = place.script('ulimit -d > "$HOME/script"; cat "$HOME/secrets/old"')
    place.wrap_tool('ulimit -d >> "$HOME/tool"')
    silent("an edit", edit(place, f'ulimit -d > "$HOME/editor"; {CHANGE}', "--vault-password-file", script, "a.yml"))
    limits = {name: {*(place.path / name).read_text().split()} for name in ("script", "editor", "tool")}
    own = {place.shell("ulimit -d").stdout.strip()}
    assert (limits["script"], limits["editor"]) == (own, own), "the user's programs"
    [limit] = limits["tool"]
    assert limit.isdecimal() and int(limit) << 10 <= memory.MOST, "another program"
    (place.path / "tool").unlink()
    ended("a view", place.shell(f"{WITH} view --vault-password-file ../secrets/old < a.yml"), 0)
    assert {*(place.path / "tool").read_text().split()} == own, "what takes the place of a companion"


def test_recursion(place: Place) -> None:
    """What recurses in a library too deeply, for all that is done to prevent it, ends a run in a line."""
    code = f"{START} as it; it.prepare_process(); recurse = lambda: recurse(); recurse()"
    done = place.run("python3", "-IBc", code)
    check_answer("the run", done, 1, errors="-c: maximum recursion depth exceeded\n")


def test_length_of_files(place: Place) -> None:
    """A password is the whole one, or none."""
    needs("prlimit")
    place.put("../long", b"x" * 1_500)
    place.put("a.txt", TEXT)
    done = place.run("prlimit", "--fsize=1024", WITH, "encrypt", "--vault-password-file=../long", "a.txt")
    check_answer("the encryption", done, 1, errors=f"{WITH}: ../long: File too large\n")
    assert place.get("a.txt") == TEXT, "the file stays"


def test_input_that_does_not_wait(place: Place) -> None:
    """Standard input is read to its end, even if another program has set it not to wait for data."""
    place.put("a.yml", block("old"))
    unblocked = "import os, sys; os.set_blocking(0, False); os.execvp(sys.argv[1], sys.argv[1:])"
    words = shlex.join(["python3", "-c", unblocked, EDIT, *place.by_file("old"), "--value=secret", "a.yml"])
    done = place.shell(f"(sleep 0.3; printf abc; sleep 0.3; printf def) | {words}")
    check_answer("the edit", done)
    assert texts(place.get("a.yml"), "old") == [b"abcdef"], "all of the input"


# Two more runs.
SINCE, SCRIPT = f"{HOOK} --since", "a script"


def prepare_in_repository(place: Place) -> dict[str, list[str]]:
    """Write files, and return the command lines of runs."""
    merge = versions(place, "a.yml", *(sealed("old", text) for text in (b"1\n2\n3\n", b"1\n2\n4\n", b"5\n2\n3\n")))
    place.put(".gitattributes", b"a.yml diff=ansible-vault\n")
    place.script(f"cat {place.secret('old')}")
    place.environment["EDITOR"] = "true"
    place.shell("git init -q && git add . && git -c user.name=a -c user.email=b commit -qm c")
    old = place.by_file("old")
    return {
        EDIT: [EDIT, *old, "a.yml"],
        ROTATE: [ROTATE, *to_new(place), "a.yml"],
        MERGE: [MERGE, *old, *merge],
        CHECK: [CHECK, *old, "a.yml"],
        TEXTCONV: [TEXTCONV, *old, "a.yml"],
        HOOK: [HOOK],
        SINCE: [HOOK, "--since", "HEAD"],
        WITH: [WITH, "view", *old, "a.yml"],
        SCRIPT: [CHECK, "--vault-id", f"{place.path}/script", "a.yml"],
    }


# What is missing, what a message calls it, and the runs that need it.
MISSING = {
    "git": ("git is not installed; install it", {MERGE, CHECK, HOOK, SINCE, SCRIPT}),
    "sh": ("sh is not installed; install it", {EDIT}),
    "/dev/null": ("/dev/null", {MERGE, CHECK, HOOK, SINCE, SCRIPT}),
    "the current directory": ("the current directory: No such file", {*NAMES, SINCE, SCRIPT}),
}
TAKE_AWAY = {
    "/dev/null": "mount -t tmpfs none /dev; ln -s /proc/self/fd /dev/fd; mknod /dev/urandom c 1 9;",
    "the current directory": "mkdir gone; cd gone; rmdir ../gone;",
}


@pytest.mark.parametrize("name", (*NAMES, SINCE, SCRIPT))
@pytest.mark.parametrize("what", MISSING)
def test_what_is_missing(place: Place, git: None, what: str, name: str) -> None:
    """A run that needs what is missing fails, and names it. Any other does its work."""
    needs("unshare")
    words = prepare_in_repository(place)[name]
    told, needing = MISSING[what]
    few = place.path / "few"
    few.mkdir()
    for program in ("cat", "true"):
        (few / program).symlink_to(f"/bin/{program}")
    for program, path in {"python3": sys.executable, "git": shutil.which("git"), "sh": "/bin/sh"}.items():
        if program != what:
            (few / program).symlink_to(str(path))
    line = f"{TAKE_AWAY.get(what, '')} PATH={place.tools}:{few}; exec {shlex.join(words)}"
    done = place.run("unshare", "--mount", "/bin/sh", "-c", line)
    is_needed = name in needing
    assert (done.returncode != 0, told in done.stderr) == (is_needed, is_needed), done
    assert "Traceback" not in done.stderr, done


# A disk fails once a new file has taken its place.
UNSYNCED = """
import stat
sync = os.fsync
def fail(number):
    if stat.S_ISDIR(os.fstat(number).st_mode):
        raise OSError(5, "the disk is broken")
    sync(number)
os.fsync = fail
"""
NOT_SYNCED = "a.yml: it was written, but a power failure may undo that: its directory cannot be synced: the "
# The companions that replace a file, with the rest of the line, and the password that the file then has.
OLD, NEW = "--vault-password-file ../secrets/old", "--new-vault-password-file ../secrets/new"
REPLACING = {
    EDIT: (f"{OLD} a.yml", "old"),
    ROTATE: (f"{OLD} {NEW} a.yml", "new"),
    MERGE: (f"{OLD} ../base a.yml ../theirs a.yml", "old"),
    WITH: (f"rekey {OLD} {NEW} a.yml", "new"),
}


@pytest.mark.parametrize("companion", REPLACING)
def test_directory_that_is_not_synced(place: Place, git: None, companion: str) -> None:
    """The file is written, which the message says, and what was saved is nowhere else."""
    line, password = REPLACING[companion]
    for path in ("a.yml", "../base", "../theirs"):
        place.put(path, sealed("old"))
    done = run_changed(place, companion, UNSYNCED, line.split(), EDITOR=place.script(CHANGE, "editor"))
    assert done.returncode == (CONFLICT if companion == MERGE else 1), done
    assert f"{companion}: {NOT_SYNCED}disk is broken\n" in done.stderr, done
    if companion == ROTATE:
        assert done.stdout.endswith(f"{summary(1, failed=1)}\n"), "it is rotated all the same"
    found = texts(place.get("a.yml"), password)
    assert found == {EDIT: [CHANGED], MERGE: [TEXT, TEXT]}.get(companion, [TEXT]), "what is written"
    assert place.names() == ["a.yml"], "no temporary file is left"
    assert place.left() == [], "no plaintext is left"
    assert place.copies() == [], "no copy is left"


@pytest.mark.parametrize("line", [f"{WITH} view a.yml", f"{WITH} create new.yml", f"{EDIT} a.yml", f"{CHECK} a.yml"])
def test_no_descriptors(place: Place, line: str) -> None:
    """ansible-vault gets its passwords through /proc. Without it, no password is named as the fault, and no editor
    starts."""
    needs("unshare")
    place.put("a.yml", sealed("old"))
    companion, *others = line.split()
    words = shlex.join([companion, *others[:-1], *place.by_file("old"), others[-1]])
    editor = place.script("touch ../started", "editor")
    done = place.run("unshare", "-m", "sh", "-c", f"mount -t tmpfs none /proc && exec {words}", EDITOR=editor)
    why = "ansible-vault gets passwords through /dev/fd, which leads nowhere; mount /proc, or link /dev/fd to"
    assert (done.returncode, done.stdout) == (1, "") and why in done.stderr, done
    assert "secrets/old" not in done.stderr and not (place.path / "started").exists()

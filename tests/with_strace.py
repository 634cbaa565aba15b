"""Watch the system calls of the built program.

The tests check which paths are opened, in which order and how; how many bytes of each are read, and that no more than
its limit is asked for; that standard input is not read if it is not needed; what is created, when and with which mode;
how many bytes are written where; and that no other call is made.

Contracts say what a run opens and in which order, and what it writes, if the methods that make the calls are right; so
each way to read, to write and to end has one run here, and each preparation one that is refused.
"""

import re
from collections import Counter
from operator import attrgetter
from pathlib import Path
from typing import NamedTuple

import pytest

from lib.cases import TEXT, Cases
from lib.needs import needs
from lib.system_calls import Call, Traced, trace
from model.faults import Fault
from model.vaults import ENVELOPE_LIMIT, PLAINTEXT_LIMIT, SALT, seal, yaml_block

OF_FILES = {"openat", "read", "write", "close", "statx", "fchmod", "ftruncate", "fsync"}
OF_MEMORY = {"brk", "mmap", "munmap", "mremap"}
OTHERS = {"rt_sigaction", "getrandom", "fcntl", "exit_group"}
READING, CREATING = {"O_RDONLY"}, {"O_WRONLY", "O_CREAT"}
# Flags that change nothing here: no terminal becomes the program's own, no other program is started, and directories
# give no bytes.
HARMLESS = {"O_NOCTTY", "O_CLOEXEC", "O_LARGEFILE", "O_DIRECTORY"}
OWNER_ALONE = "0600"
STDIN, STDOUT, STDERR = range(3)
RANDOM = "/dev/urandom"
# The most bytes that a run asks for: from a password file, from a salt.
PASSWORD_LIMIT, SALT_LENGTH = 4_097, 32
VAULT = seal(b"one", TEXT)
# The files, with the most bytes of each that may be asked for.
FILES = {
    "one": (b"one\n", PASSWORD_LIMIT),
    "two": (b"two\n", PASSWORD_LIMIT),
    "empty": (b"", PASSWORD_LIMIT),
    "salt": (SALT + b"more", SALT_LENGTH),
    "short": (b"short", SALT_LENGTH),
    "plain": (TEXT, PLAINTEXT_LIMIT + 1),
    "vault": (VAULT, ENVELOPE_LIMIT + 1),
    "unread": (VAULT, 0),
    "old": (b"old" * 1_000, 0),
}
LIMITS = {RANDOM: SALT_LENGTH, str(STDIN): ENVELOPE_LIMIT + 1} | {name: limit for name, (_, limit) in FILES.items()}
# How many bytes each gives if it is read to its end or its limit.
SIZES = {RANDOM: SALT_LENGTH} | {name: min(len(content), limit) for name, (content, limit) in FILES.items()}


class Run(NamedTuple):
    """What a run must do: the paths that it opens for reading, each once and in this order; the path that it creates
    last; how many bytes of output it writes, or None for a text of the parser's; what it gets from standard input, or
    None if it must not ask; and how it ends."""

    # In a command line, @ before a word makes it a password file.
    line: str
    read: str = ""
    created: str | None = None
    written: int | None = 0
    stdin: bytes | None = None
    fault: Fault | None = None
    status: int = 0


IN_YAML, REKEYED = len(yaml_block(seal(b"one", b"text"))), len(seal(b"two", TEXT, b"b"))
RUNS = [
    Run("encrypt @one --output=new plain", f"one {RANDOM} plain", "new", len(VAULT)),
    Run("encrypt_string @one --output=new text", f"one {RANDOM}", "new", IN_YAML),
    Run("rekey @one --new-vault-id=b@two --salt-file=salt --output=old vault", "one two salt vault", "old", REKEYED),
    Run("decrypt @two @one --output=new vault", "two one vault", "new", len(TEXT)),
    Run("decrypt @two @one --output=old vault", "two one vault", "old", len(TEXT)),
    Run("encrypt @one", f"one {RANDOM}", written=len(VAULT), stdin=TEXT),
    Run("view @one vault", "one vault", written=len(TEXT)),
    Run("view @one", "one", written=len(TEXT), stdin=VAULT),
    Run("view --help", written=None),
    Run("view --loud", written=None, status=2),
    # Nothing is created. Bad passwords and salts are refused before FILE or standard input is read.
    Run("encrypt @one plain", fault=Fault.OUTPUT_NEEDED),
    Run("view @one @missing @two vault", "one missing", fault=Fault.SECRET_NOT_OPENED),
    Run("decrypt @two --output=new vault", "two vault", fault=Fault.NO_SECRET_FITS),
    Run("encrypt --output=new", RANDOM, fault=Fault.NO_ENCRYPT_SECRET),
    Run("encrypt @one --salt-file=short --output=new unread", "one short unread", fault=Fault.SALT_SHORT),
    Run("view @one @empty unread", "one empty unread", fault=Fault.SECRET_EMPTY),
]

# A call that opens or changes a file: its name; the path or the descriptor; the other flags, the mode or the length.
Step = tuple[str, str | int, object, object]


def watch(program: str, run: Run, folder: Path) -> Traced:
    for name, (content, _) in FILES.items():
        (folder / name).write_bytes(content)
    words = [f"--vault-password-file={word[1:]}" if word[0] == "@" else word for word in run.line.split()]
    command = ["sh", "-c", 'cd "$0" && exec "$@"', str(folder), program, *words]
    return trace(command, folder / "log", 2, b"not asked for" if run.stdin is None else run.stdin)


def opening(call: Call) -> Step:
    flags, _, mode = call.args.rpartition('", ')[2].partition(", ")
    return call.name, call.path, {*flags.split("|")} - HARMLESS, mode


def steps(own: list[Call]) -> list[Step]:
    """Return the calls that open or change a file, with the bytes of consecutive writes added up."""
    found: list[Step] = []
    length = 0
    for call in own:
        if call.name == "openat":
            found.append(opening(call))
        elif call.name == "write":
            is_next = found != [] and found[-1][:2] == (call.name, call.fd)
            length = call.result + (length if is_next else 0)
            if is_next:
                found.pop()
            found.append((call.name, call.fd, "", length))
        elif call.name in ("fchmod", "ftruncate", "fsync"):
            found.append((call.name, call.fd, "", call.args.partition(", ")[2]))
    return found


def lengths_written(run: Run, traced: Traced) -> tuple[int, int]:
    """Return the lengths of the output and of the message. A text of the parser's may have any length."""
    if run.written is not None:
        return run.written, len(run.fault.line) if run.fault else 0
    if run.status:
        return 0, len(traced.message or b"")
    return len(traced.output or b""), 0


def steps_to_create(run: Run, target: int) -> list[Step]:
    """Return the steps before anything is written: the file is opened, made private if `decrypt` does it, and only then
    emptied."""
    found: list[Step] = [("openat", run.created or "", CREATING, OWNER_ALONE)]
    if run.line.startswith("decrypt"):
        found.append(("fchmod", target, "", OWNER_ALONE))
    found.append(("ftruncate", target, "", "0"))
    return found


def check_files(run: Run, traced: Traced) -> None:
    """Files are opened in order. After all reading, the output's file is created, written, and finally synced."""
    files = [call for call in traced.own if call.name == "openat"]
    written, message = lengths_written(run, traced)
    target = files[-1].result if run.created else STDOUT
    wanted: list[Step] = [("openat", path, READING, "") for path in run.read.split()]
    if run.created:
        wanted += steps_to_create(run, target)
        after = traced.own[traced.own.index(files[-1]) :]
        assert "read" not in {call.name for call in after}, "what is read once the output's file is opened"
    if written:
        wanted.append(("write", target, "", written))
    if message:
        wanted.append(("write", STDERR, "", message))
    if run.created:
        wanted.append(("fsync", target, "", ""))
    assert steps(traced.own) == wanted, "what is opened and written"


def check_message(run: Run, traced: Traced) -> None:
    if run.fault:
        assert traced.message == run.fault.line, "the message"
        writes = [call for call in traced.own if call.name == "write" and call.fd == STDERR]
        assert len(writes) == 1, "the message is one write"


def check_reads(run: Run, own: list[Call]) -> None:
    """Every source is read to its end or its limit, and no further. Standard input is only read if it is needed."""
    given: Counter[str] = Counter()
    most: Counter[str] = Counter()
    paths: dict[int, str] = {}
    for call in own:
        if call.name == "openat":
            paths[call.result] = call.path
        elif call.name == "close":
            paths.pop(call.fd, None)
        elif call.name == "read":
            source = paths.get(call.fd, str(call.fd))
            most[source] = max(most[source], given[source] + int(call.args.rsplit(", ", 1)[1]))
            given[source] += max(call.result, 0)
    wanted = Counter({path: SIZES.get(path, 0) for path in run.read.split()} | {str(STDIN): len(run.stdin or b"")})
    assert +given == +wanted, "how many bytes are read"
    assert (str(STDIN) in most) == (run.stdin is not None), "standard input is read"
    assert {source for source, asked in most.items() if asked > LIMITS.get(source, 0)} == set(), "what is read too far"


def check_others(own: list[Call]) -> None:
    assert {call.name for call in own} - OF_FILES - OF_MEMORY - OTHERS == set(), "other calls"
    signals = {call.args.partition(",")[0] for call in own if call.name == "rt_sigaction"}
    assert signals - {"SIGPIPE"} == set(), "other signals"
    asked = [(call.fd, call.args.split(", ")[1]) for call in own if call.name == "fcntl"]
    assert asked == [(stream, "F_DUPFD_CLOEXEC") for stream in (0, 1, 2)], "whether the streams are open"
    mapped = [call.args for call in own if call.name == "mmap" and "MAP_ANONYMOUS" not in call.args]
    assert mapped == [], "files that are mapped"
    of_open_files = re.compile(r'(\d{2,}|[3-9]), (""|NULL)')
    others = [call.args for call in own if call.name == "statx" and not of_open_files.match(call.args)]
    assert others == [], "paths or streams that are looked at"


@pytest.mark.parametrize("run", RUNS, ids=attrgetter("line"))
def test_calls(cases: Cases, run: Run) -> None:
    needs("strace")
    traced = watch(cases.program, run, cases.folder)
    assert traced.status == (run.fault.status if run.fault else run.status)
    check_files(run, traced)
    check_message(run, traced)
    check_reads(run, traced.own)
    check_others(traced.own)

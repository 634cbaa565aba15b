"""Files, names, links and attributes that a stranger has made: every companion ends with a status and messages in the
form that the manual pages name."""

import os
import re
from collections.abc import Callable
from functools import partial
from random import Random
from typing import NamedTuple

import pytest

from companion_cases import CHECK, CONFLICT, EDIT, HOOK, MERGE, ROTATE, TEXT, TEXTCONV, Companions, Place
from companion_cases import block, sealed
from companion_cases.forks import Forks
from companion_cases.repository import add_and_commit, under_git

pytestmark = [pytest.mark.usefixtures("git"), pytest.mark.faults]

# The longest content in bytes: deeper than Python's own limit of recursion, but not too deep for libyaml.
LONGEST = 4_000
BLOCK, ENVELOPE, HEADER = block("old"), sealed("old"), b"$ANSIBLE_VAULT;1.1;AES256\n"
SIDES = b"<<<<<<< ours\nx: 1\n=======\nx: 2\n>>>>>>> theirs\n"
# What is repeated, as often as it fits into the size, behind the first text and before the last one. Six characters
# become the number of the piece.
CONTENTS = {
    # Depth.
    "brackets": (b"x: ", b"[", b""),
    "braces": (b"x: ", b"{a: ", b""),
    "closed brackets": (b"x: ", b"[]", b""),
    "dashes": (b"x:\n", b"- ", b"1\n"),
    "questions": (b"", b"? ", b"1\n"),
    "items at depth 60": (b"x: " + b"[" * 60, b"1,", b"]" * 60 + b"\n"),
    "values at depth 60": (b"x: " + b"[" * 60, b"!vault v,", b"]" * 60 + b"\n"),
    "items at depth 990": (b"x: " + b"[" * 990, b"1,", b"]" * 990 + b"\n"),
    # Aliases.
    "aliases of a text": (b"a: &a x\nx: [", b"*a,", b"]\n"),
    "aliases of a list": (b"a: &a [%s]\nx: [" % (b"1," * 90), b"*a,", b"]\n"),
    "aliases of a value": (b"a: &a\n  %bx: [" % BLOCK.replace(b"\n", b"\n  ").strip(b" "), b"*a,", b"]\n"),
    "anchors": (b"x:\n", b"- &a 1\n- *a\n", b""),
    "merged mappings": (b"a: &a {x: 1}\n", b"b: {<<: *a}\n", b""),
    # Headers, blanks, margins and line ends.
    "blanks behind a tag": (b"pw: !vault |  #", b" ", b"c\n"),
    "blanks behind a header": (b"# " + HEADER.strip(), b" ", b"\n"),
    "lines behind a header": (b"# " + HEADER, b"\n", b"61\n"),
    "comments behind a header": (b"# " + HEADER, b"# 61\n", b""),
    "headers in a line": (b"# ", HEADER.strip() + b" ", b"\n"),
    "headers with digits in a line": (b"# ", HEADER.strip() + b" 6161616161616161 ", b"\n"),
    "headers behind a margin": (b"#" * (LONGEST // 2), HEADER.strip() + b" 6161616161616161 ", b"\n"),
    "headers in lines": (b"", b"# " + HEADER + b"# 6161616161616161\n", b""),
    "semicolons": (b"# $ANSIBLE_VAULT", b";", b"\n"),
    "digits": (b"x: !vault |\n  " + HEADER + b"  ", b"61", b"\n"),
    "lines of digits": (b"x: !vault |\n  " + HEADER, b"  61\n", b""),
    "escaped line ends": (b'x: "$ANSIBLE_VAULT;1.1;AES256', b"\\n", b'61616161616161"\n'),
    "carriage returns": (b"x: 1", b"\r", b"y: 2\n"),
    "tabs": (b"x:", b"\t", b"1\n"),
    # Words that are searched.
    "tags": (b"x: [", b"!vault v, ", b"]\n"),
    "escaped tags": (b"x: [", b"!va%75lt v, ", b"]\n"),
    "percent signs": (b"x: !", b"a%", b" 1\n"),
    "backslashes": (b'x: "', b"\\\\", b'"\n'),
    "handles": (b"", b"%TAG !x! !\n", b"---\nx: 1\n"),
    "different handles": (b"", b"%TAG !NUMBER! !\n", b"---\nx: 1\n"),
    "documents": (b"", b"--- 1\n...\n", b""),
    "expressions": (b'pw: "', b"{{ x }}", b'"\n'),
    "open expressions": (b'pw: "', b"{{ ", b'"\n'),
    "quotes in an expression": (b'pw: "{{ ', b"'", b' }}"\n'),
    "braces in an expression": (b"pw: '{{ ", b"{", b" }}'\n"),
    "statements": (b"pw: '", b"{% x %}", b"'\n"),
    # Markers.
    "a long marker": (SIDES, b"<", b"\n"),
    "long markers": (SIDES + b"<" * 1_000 + b"\n", SIDES, b""),
    "conflicts": (b"", SIDES, b""),
    "open conflicts": (b"", b"<<<<<<< ours\n", b""),
    "titles": (b"", b"=======\n", b""),
    "conflicts of values": (b"", b"<<<<<<< ours\n%b=======\n%b>>>>>>> theirs\n" % (BLOCK, BLOCK), b""),
    # Size, and other encodings.
    "keys": (b"", b"k: 1\n", b""),
    "long key": (b"", b"k", b": 1\n"),
    "list": (b"x:\n", b"- 1\n", b""),
    "items": (b"x: [", b"~,", b"]\n"),
    "items below a conflict": (SIDES + b"x: [", b"~,", b"]\n"),
    "text in no ASCII": (b"x: '", "ä".encode(), b"'\n"),
    "astral characters": (b"x: '", "😀".encode(), b"'\n"),
    "null characters": (b"", b"\0", b""),
    "UTF-16": (b"\xff\xfe", b"x\0:\0 \0001\0\n\0", b""),
    "no UTF-8": (b"x: '", b"\xff", b"'\n"),
    "blank": (b"", b" \n", b""),
}
# Names of a file, which are bytes.
NAMES = [
    b"\xff\xfe.yml", b"a\nfine: b.yml", b"-f.yml", b"--all", b"--", b"HEAD", b"HEAD~1", b"master", b"@", b":0:a.yml",
    b":/", b":(top)a.yml", b"\x1b[2J.yml", b"\x1b]0;owned\x07.yml", b"\xe2\x80\xae.yml", b"a\\.yml", b'"a".yml', b"*",
    b"[a].yml", b" ", b"~", b"#.yml", b"!a.yml", b"%2e.yml", b"MERGE_HEAD", b"x" * 255, b"$(id).yml",
]  # fmt: skip
# Where a link leads.
LINKS = [
    b"nowhere",
    b"self",
    b".",
    b"..",
    b"/etc/hostname",
    b"/dev/zero",
    b"/proc/self/fd/0",
    b"/proc/self/environ",
    b".git/config",
]
LINKS += [
    b"q/" * 2_000 + b"a.yml",
    b"./" * 2_000 + b"a.yml",
    b"../" * 1_300 + b"etc/hostname",
    b"\xff",
    b"-x",
    b"a.yml/",
]
# Lines of .gitattributes.
ATTRIBUTES = {
    "a marker's size": b"* conflict-marker-size=200000000 diff=ansible-vault\n",
    "patterns": b"**/a/**/b/** ansible-vault\n" * 100,
    "a long line": b"a.yml diff=ansible-vault " + b"x " * 2_000 + b"\n",
    "a long pattern": b"*" * 1_900 + b"a.yml ansible-vault\n",
    "a macro": b"[attr]ansible-vault ansible-vault\n* ansible-vault\n",
    "an encoding": b"* working-tree-encoding=UTF-16 ansible-vault\n",
    "no UTF-8": b"\xff\xfe ansible-vault=\xff\n* ansible-vault=\xff,%% diff=ansible-vault\n",
    "null characters": b"* ansible\0-vault\n\0\0",
    "a filter": b"* filter=x diff=ansible-vault -text eol=crlf ident\n",
}


# What is run on a.yml, by name: the companion, its arguments, and the statuses that its page names for a file.
class Command(NamedTuple):
    companion: str
    line: str
    statuses: tuple[int, ...] = (0, 1)


OLD, NEW = "--vault-password-file ~/secrets/old", "--new-vault-password-file ~/secrets/new"
COMMANDS = {
    "the hook": Command(HOOK, ""),
    "the hook, for commits": Command(HOOK, "--since HEAD~1"),
    "the hook, for all": Command(HOOK, "--all"),
    "check": Command(CHECK, f"{OLD} ."),
    "textconv": Command(TEXTCONV, f"{OLD} a.yml"),
    "textconv of a value": Command(TEXTCONV, f"{OLD} --value secret a.yml"),
    "rotate": Command(ROTATE, f"{OLD} {NEW} ."),
    "edit": Command(EDIT, f"{OLD} a.yml"),
    "merge": Command(MERGE, f"{OLD} ../base ../ours a.yml a.yml", (0, CONFLICT)),
}


def prepare(place: Place) -> None:
    """Make a repository with two commits. An edit adds a comment."""
    under_git(place, "")
    place.environment["EDITOR"] = place.script('echo "# x" >> "$1"', "editor")
    place.put("a.yml", BLOCK)
    add_and_commit(place)
    place.put("../base", BLOCK)
    place.put("../ours", BLOCK + b"x: 1\n")


def stage(place: Place, command: str) -> None:
    """Stage what is there, or commit it if this command looks at commits."""
    place.shell("git add -A")
    if command in ("the hook, for commits", "the hook, for all"):
        place.shell("git commit -qm change --allow-empty --no-verify")


def find_fault(place: Place, forks: Forks, command: str) -> str:
    """Run a command, and say what its answer has that no page names; empty if there is nothing."""
    companion, line, statuses = COMMANDS[command]
    run = forks.run(place, companion, *line.split())
    if any(word.startswith("-") and os.path.lexists(place.tree / word) for word in line.split()):
        return "" if run.status == 2 and "a file has this name" in run.errors else "it takes a file for an option"
    if run.status not in statuses:
        return f"it has the status {run.status}: {run.errors[:500]}"
    # A line of advice follows one of the hook, or of an edit that leaves an encrypted copy.
    lines = [line for line in run.errors.splitlines() if not re.match(rf"{companion}: |  \S|--resume opens", line)]
    lines += [line for line in run.errors.splitlines() if not line.isprintable()]
    if run.status and not run.errors:
        return "it fails without a word"
    return f"it prints {lines[0][:300]!r}" if lines else ""


def content_of(name: str) -> bytes:
    before, piece, after = CONTENTS[name]
    numbers = range((LONGEST - len(before) - len(after)) // len(piece))
    return before + b"".join(piece.replace(b"NUMBER", b"%06d" % number) for number in numbers) + after


def beside_envelope(content: bytes, random: Random) -> bytes:
    """Put an envelope before or behind a content, so that companions look at both."""
    return random.choice([BLOCK + content, content + b"\n# " + ENVELOPE.replace(b"\n", b"\n# ")])


# The parts of a test, which may run in several processes.
PARTS = 2
# Makes what a stranger has in a repository, for a command.
Make = Callable[[Place, str], None]


def try_all(
    cases: Companions, forks: Forks, config: pytest.Config, makes: dict[str, Make], *first: str
) -> tuple[int, int]:
    """Run one of the first commands on each that is made, and one in --share of all commands. Return how many were run,
    and of how many."""
    share, random = int(config.getoption("--share")), Random(f"{config.getoption('--seed')}")
    every = [(name, command) for name in makes for command in COMMANDS]
    seen, number, faults = set[str](), 0, []
    for name, command in sorted(random.sample(every, len(every)), key=lambda pair: pair[1] not in first):
        if name in seen and random.randrange(share) > 0:
            continue
        seen.add(name)
        number += 1
        place = cases.place()
        prepare(place)
        makes[name](place, command)
        stage(place, command)
        fault = find_fault(place, forks, command)
        faults += [f"{command} of {name}: {fault}"] if fault else []
    assert not faults, "\n".join(faults)
    return number, len(every)


@pytest.mark.parametrize("part", range(PARTS))
def test_contents(
    cases: Companions,
    forks: Forks,
    part: int,
    pytestconfig: pytest.Config,
    record_property: Callable[[str, object], None],
) -> None:
    random = Random(int(pytestconfig.getoption("--seed")))

    def make(name: str, place: Place, _command: str) -> None:
        place.put("a.yml", beside_envelope(content_of(name), random))

    makes: dict[str, Make] = {name: partial(make, name) for name in [*CONTENTS][part::PARTS]}
    record_property("hostile files", try_all(cases, forks, pytestconfig, makes, "the hook", "edit"))


def put_name(name: bytes, place: Place, _command: str) -> None:
    """A plaintext in place of a vault of this name, in two directories."""
    for folder, content in (("", ENVELOPE), ("a folder/", BLOCK)):
        place.put(folder + os.fsdecode(name), content)
    add_and_commit(place)
    place.put(os.fsdecode(name), TEXT)


def put_link(target: bytes, place: Place, _command: str) -> None:
    """A link in place of a vault, and one that is marked."""
    place.put("b.yml", ENVELOPE)
    add_and_commit(place)
    place.put(".gitattributes", b"self ansible-vault\n")
    (place.tree / "b.yml").unlink()
    for name in ("b.yml", "self"):
        os.symlink(target, os.fsencode(place.tree / name))


def put_attributes(line: bytes, place: Place, _command: str) -> None:
    place.put(".gitattributes", line)
    place.put("deep/.gitattributes", line)
    place.put("deep/a.yml", BLOCK.replace(b"61", b"62"))
    place.put("a.yml", TEXT)


OTHERS: dict[str, Make] = {f"the name {name!r}": partial(put_name, name) for name in NAMES}
OTHERS |= {f"a link to {target[:40]!r}": partial(put_link, target) for target in LINKS}
OTHERS |= {f"attributes, {what}": partial(put_attributes, line) for what, line in ATTRIBUTES.items()}


@pytest.mark.parametrize("part", range(PARTS))
def test_others(
    cases: Companions,
    forks: Forks,
    part: int,
    pytestconfig: pytest.Config,
    record_property: Callable[[str, object], None],
) -> None:
    makes = {name: OTHERS[name] for name in [*OTHERS][part::PARTS]}
    record_property("hostile files", try_all(cases, forks, pytestconfig, makes, "the hook"))


@pytest.mark.parametrize("words", ([CHECK], [ROTATE, "--new-vault-password-file={new}"]), ids=(CHECK, ROTATE))
def test_depth(place: Place, words: list[str]) -> None:
    """Neither a chain of links nor a depth of directories that exceeds Python's own limit of recursion ends a run."""
    count, followed = 1_100, 40
    deep = place.tree
    for _ in range(count):
        deep /= "d"
        deep.mkdir()
    (deep / "a.yml").write_bytes(ENVELOPE)
    place.put(f"chain/l{count}", ENVELOPE)
    for number in range(count):
        (place.tree / f"chain/l{number}").symlink_to(f"l{number + 1}")
    # Its first link leads out of the repository, to the chain.
    place.shell("git init -q clone; ln -s ../chain clone/out")
    links = ["clone/out/l0", *(f"chain/l{number}" for number in range(count))]
    full = [word.format(new=place.secret("new")) for word in words]
    done = place.run(*full, *place.by_file("old"), "d", *links)
    loops = [f"{words[0]}: {link}: Too many levels of symbolic links" for link in links[:-followed]]
    assert (done.returncode, done.stderr.splitlines()) == (1, loops), "the system follows 40 links"
    assert done.stdout.splitlines()[-1].startswith("2 ") and f" {len(loops)} failed" in done.stdout
    place.shell("rm -r d")

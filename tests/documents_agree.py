"""The documents agree with the code: the calls, clauses, definitions and tests that docs/verification*.md name, what
tools/write_documents writes, messages, limits, options, links and figures. tools/lint looks for paths and names."""

import re
from collections.abc import Iterator
from functools import cache
from operator import attrgetter
from pathlib import Path

import pytest

from ansible_vault_companions import OLDEST, memory
from ansible_vault_companions.editing import private_directory
from ansible_vault_companions.files import leftovers
from ansible_vault_companions.limits import LONGEST_PLAINTEXT, LONGEST_VAULT, MOST_PASSWORDS
from contracts import CRATES, code, declared_in
from documents import FORMATS, PAGE as VERIFICATION, REFERENCE, WRITTEN, definition_files
from lib.links import dead_links
from lib.needs import needs
from lib.paths import COMPANIONS, MANUALS, PAGE, README, ROOT, sections
from lib.processes import run_text
from model.faults import Fault
from model.formats import WHITESPACE, is_label
from model.options import COMMON, OPTIONS
from picture import PICTURE, draw_picture
from programs import PROGRAM, commands

DOCUMENTS = [README, ROOT / "CONTRIBUTING.md", *sorted((ROOT / "docs").glob("*.md")), *MANUALS]
TEXT = "".join(document.read_text() for document in DOCUMENTS)
# The exit status of each fault, by its text.
STATUSES = {fault.line.decode().removeprefix("ERROR! ").strip(): fault.status for fault in Fault}
# The options of each program and of each of its commands.
SPELLINGS = {command.line: command.spellings for command in commands()}

# What shows a claim, after it in a list, or in the last of a row's three or four columns: the calls with their clauses,
# the definitions, and the tests.
CLAIM = re.compile(r"^- .*?: (`.*)\.$|^\|(?: [^|]* \|| \|){2,3} ([^|]*) \|$", re.MULTILINE)
CONTRACT = re.compile(r"^`([\w:]+)`(?:: ((?:`\w+`(?:, )?)+))?$")
DEFINITIONS = re.compile(r"((?:`[\w-]+`(?:, | and )?)+) \(`([\w/]+\.antt)`\)")
TEST = re.compile(r"`(tests/[\w/.]+)`(?:: ((?:`\w+`(?:, )?)+))?")
CODE = re.compile(r"`([^`]+)`")


@cache
def contracts_of(call: str) -> list[str]:
    """Return the contracts of the functions with this name, in the files that mention each part of its path."""
    *path, name = call.split("::")
    # Match up to the body, or to the empty line after a trait's method.
    contract = re.compile(rf"\bfn {name}\b.*?(?:^ *\{{|;\n\n)", re.MULTILINE | re.DOTALL)
    found = []
    for file, text in code().items():
        if all(re.search(rf"\b{part}\b", f"{file} {text}") for part in path):
            found += [each for each in contract.findall(text) if "ensures" in each]
    return found


def unproved(page: str) -> Iterator[str]:
    """Yield calls without a contract, and clauses that no contract of the call has."""
    parts = [part.strip() for groups in CLAIM.findall(page) for part in "".join(groups).split(";")]
    for call in filter(None, map(CONTRACT.match, parts)):
        contracts = contracts_of(call[1])
        yield from [] if contracts else [f"{call[1]} has no contract"]
        for clause in CODE.findall(call[2] or ""):
            if not any(re.search(rf"\bensures {clause}\b", each) for each in contracts):
                yield f"{call[1]} has no clause {clause}"


def untested(page: str) -> Iterator[str]:
    """Yield tests that do not exist."""
    for name, functions in (test for groups in CLAIM.findall(page) for test in TEST.findall("".join(groups))):
        path = ROOT / name
        text = path.read_text() if path.is_file() else ""
        yield from [] if path.exists() else [f"there is no {name}"]
        yield from (f"{name} has no {each}" for each in CODE.findall(functions) if f"def test_{each}(" not in text)


def undefined(page: str) -> Iterator[str]:
    """Yield definitions that are not in the one listed file with this name."""
    for names, place in DEFINITIONS.findall(page):
        files = [str(file.relative_to(CRATES)) for file in definition_files() if str(file).endswith(f"/{place}")]
        yield from [] if len(files) == 1 else [f"listed files of the name {place}: {files}"]
        declared = set().union(*map(declared_in, files))
        yield from (f"{place} does not define {name}" for name in CODE.findall(names) if name not in declared)


@pytest.mark.parametrize("page", (VERIFICATION, REFERENCE), ids=attrgetter("name"))
def test_claims(page: Path) -> None:
    text = page.read_text()
    assert [*unproved(text), *untested(text), *undefined(text)] == []
    assert len(CLAIM.findall(text)) > 10


@pytest.mark.parametrize("page", WRITTEN, ids=attrgetter("name"))
def test_written(page: Path) -> None:
    """tools/write_documents changes nothing, and finds each name in one file."""
    assert WRITTEN[page](page.read_text()) == page.read_text()
    assert "in `none.rt`" not in page.read_text()


def test_picture(program: str) -> None:
    """tools/picture.py changes nothing, and the text for those who do not see the picture quotes it."""
    picture = PICTURE.read_text()
    [text] = re.findall(r"!\[(.*)\]\(docs/git-diff\.svg\)", README.read_text())
    assert draw_picture(program) == picture
    quoted = re.findall('"(.*?)"', text)
    assert len(quoted) > 3 and [each for each in quoted if each not in picture] == []


PAGES = [*ROOT.glob("*.md"), *ROOT.glob("*/*.md"), *ROOT.glob("man/*")]
PAGES += [ROOT / "debian" / "control", ROOT / "debian" / "README.source"]


def test_links() -> None:
    assert [(page.name, link) for page in PAGES for link in dead_links(page)] == []


def test_promises() -> None:
    """tools/promises finds a promise for each test of the companions."""
    table = run_text([str(ROOT / "tools" / "promises")]).stdout
    rows = re.findall(r"^\| (.*) \| \w+/\w+\.py::(\w+) \|$", table, re.MULTILINE)
    assert len(rows) > 450
    assert [name for promise, name in rows if not promise] == []


def test_messages_and_statuses() -> None:
    """The manual page explains every message, and says of each status what its faults say in their last word."""
    page = sections(PAGE)
    assert sorted(re.findall(r"^\.It (.*)$", page["DIAGNOSTICS"], re.MULTILINE)) == sorted(STATUSES)
    texts = dict(re.findall(r"^\.It (\d)\n(.+)$", page["EXIT STATUS"], re.MULTILINE))
    assert [int(status) for status in texts] == sorted({0, 2, *STATUSES.values()})
    ends = {(status, text.split()[-1]) for text, status in STATUSES.items() if status > 1}
    assert [(status, end) for status, end in ends if end not in texts[str(status)]] == []


# The constants in the table of limits, in its order.
LIMITS = """\
    PLAINTEXT_LIMIT CIPHERTEXT_LIMIT ENVELOPE_LIMIT HEADER_LIMIT SALT_LIMIT SEALING_SALT_LENGTH SALT_TEXT_LIMIT
    LABEL_LIMIT PASSWORD_FILE_LIMIT
""".split()


def test_limits() -> None:
    """docs/formats.md has the constants of the files `limits.rt`. A range's first number, 1, is no constant."""
    limits: dict[str, int] = {}
    for file in sorted(CRATES.glob("vault_*/src/limits.rt")):
        for name, expression in re.findall(r"^(?:pub )?const (\w+): \w+ = (.*);$", file.read_text(), re.MULTILINE):
            limits[name] = eval(expression, {}, limits)
    table = FORMATS.read_text().partition("\n## Limits\n")[2].partition("\n## ")[0].replace(",", "")
    columns = "".join(re.findall(r"^\| .+ (\| [\d].* \|)$", table, re.MULTILINE))
    numbers = [int(number) for number in re.findall(r"\d+", columns) if number != "1"]
    assert len(numbers) == len(LIMITS), "how many limits the table has"
    assert dict(zip(LIMITS, numbers)) == {name: limits[name] for name in LIMITS}, "the limits in the table"
    assert f"at most {limits['SECRET_COUNT_LIMIT']} passwords" in table, "the number of passwords"
    assert LONGEST_PLAINTEXT == limits["PLAINTEXT_LIMIT"], "the companions' longest plaintext"
    assert LONGEST_VAULT == limits["ENVELOPE_LIMIT"], "the companions' longest vault"
    assert {int(each.replace(",", "")) for each in re.findall(r"\d+,\d{3},\d{3}", TEXT)} <= {*limits.values()}


# The sentences of the companions' pages that name a limit, and the limit.
SENTENCES = [
    ("companions", r"longer than any vault can be \(([\d,]+) bytes\)", LONGEST_VAULT),
    ("companions", r"may take (\d) GiB of memory", memory.MOST >> 30),
    ("companions", r"name up to (\d+) passwords", MOST_PASSWORDS),
]


def test_limits_of_companions() -> None:
    """The pages of the companions have the numbers of the code."""
    texts = {path.stem: " ".join(path.read_text().split()) for path in MANUALS}
    for name, sentence, number in SENTENCES:
        found = re.findall(sentence, texts[f"{PROGRAM}-{name}"])
        assert found == [f"{number:,}"], f"the numbers of ansible-vault-{name} in {sentence}"


def test_files_of_companions() -> None:
    """docs/guide.md says where to look for them after a crash."""
    names = {
        f"{leftovers.PREFIX}*{leftovers.SUFFIX}",
        f"{private_directory.FOLDER_PREFIX}*",
        "~/.local/state/ansible-vault/",
    }
    end = (ROOT / "docs" / "guide.md").read_text().partition("## Clean up after a crash")[2]
    assert names <= {*re.findall("`([^`]+)`", end)}


def test_passwords_stay() -> None:
    """A command of a document that writes a password overwrites none."""
    writes = re.compile(r"[^->]> ?(?:~/\.vault/|[\w./]*\bpass\b)|(?<![-\w])(?:cp|install|mv|tee) .*~/\.vault/")
    writing = [line for line in TEXT.splitlines() if writes.search(line)]
    assert len(writing) > 5 and [line for line in writing if "set -C" not in line] == []


def test_bytes() -> None:
    """docs/formats.md lists the bytes that are whitespace, and those that a label may contain."""
    page = FORMATS.read_text()
    [(first, last, other)] = re.findall(r"Whitespace is the bytes (\w\w) to (\w\w) and (\w\w)\.", page)
    assert {*range(int(first, 16), int(last, 16) + 1), int(other, 16)} == {*WHITESPACE}
    [(first, last)] = re.findall(r"Its bytes are (\w\w) to (\w\w) except `;`", page)
    listed = {*range(int(first, 16), int(last, 16) + 1)} - {ord(";")}
    assert listed == {code for code in range(256) if is_label(f"a{chr(code)}b")}


# Options of git, of the prover, of other programs, and of Ansible's tool after release 2.14; and one for any option.
OTHER_OPTIONS = """\
    --cached --clean --continue --filter --global --merge --no-edit --no-textconv --no-verify --ours --range-diff --stat
    --textconv --theirs --verify
    --allow-holes --anew --list-axioms --mutants --only --test --hook-type --no-install-recommends --strict
    --unshallow --user --wait --skip-tty-check --option
""".split()


def test_options() -> None:
    """Every option in a document belongs to one of the programs or to another known one, and to the companion or the
    command of ansible-vault-with that a document gives it to. The model has those of the program."""
    named = set(re.findall(r"(?<![\w\\-])--[a-z][\w-]+", re.sub(r"\bFl -", " --", TEXT)))
    assert len(named) > 40 and named - set().union(*SPELLINGS.values()) - {*OTHER_OPTIONS} == set()
    of_program = {name: SPELLINGS[f"{PROGRAM} {name}"] - {"-n", "-h", "--help"} for name in OPTIONS}
    assert of_program == {name: options | COMMON for name, options in OPTIONS.items()}
    lines = re.findall(r"\b(ansible-vault-\w+)((?: +[^\s`|;&'\"<>(),]+)*)", re.sub(r" (?:\\e|\\)\n +", " ", TEXT))
    assert sum(name in COMPANIONS and "-" in words for name, words in lines) > 30
    for name, words in ((name, words.split()) for name, words in lines if name in COMPANIONS):
        command = next((word for word in words if f"{name} {word}" in SPELLINGS), "")
        options = {word.partition("=")[0] for word in words if re.match(r"--?[A-Za-z]", word)}
        assert options <= SPELLINGS[f"{name} {command}".strip()] | {"-v"}, (name, *words)


def test_binary(program: str) -> None:
    """docs/security.md has how the program is linked, and debian/copyright the ported crates that it contains. The
    documents name the least versions of the C library and of Python."""
    needs("nm", "readelf")
    assert "is a position-independent executable with full RELRO and a non-executable stack" in TEXT
    listed = run_text(["readelf", "--wide", "--program-headers", "--dynamic", program]).stdout
    assert re.findall(r"GNU_STACK +(?:0x\w+ +)+(\w+) ", listed) == ["RW"]
    assert "GNU_RELRO" in listed, "relocations are read-only"
    assert re.findall(r"Flags: (.*)", listed) == ["NOW PIE"], "all at once, at any address"
    assert re.findall(r"\(NEEDED\).*\[(.*)\]", listed) == ["libc.so.6"]
    licensed = {*re.findall(r"^Files: (\w+)/\*$", (ROOT / "debian" / "copyright").read_text(), re.MULTILINE)}
    contained = {*re.findall(r" [a-zA-Z] <?(\w+)::", run_text(["nm", "--demangle", program]).stdout)}
    ours = {"ansible_vault", *(each.name for each in CRATES.glob("vault_*"))}
    others = {each for each in contained - ours - licensed if not re.match("std|core", each)}
    assert others == set(), "crates that debian/copyright does not name"
    assert len(contained & licensed) > 2, "crates that it names"
    symbols = run_text(["nm", "--dynamic", "--with-symbol-versions", program]).stdout
    newest = max((int(major), int(minor)) for major, minor in re.findall(r"@GLIBC_(\d+)\.(\d+)", symbols))
    for name, least in (("glibc", newest), ("Python", OLDEST)):
        assert {*re.findall(rf"{name}\s([\d.]+\d)", TEXT)} == {".".join(map(str, least))}, name

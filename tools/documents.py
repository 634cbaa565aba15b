"""Update what the documents take from the code: code, places and numbers of lines in docs/verification.md and
docs/verification-reference.md, a program in docs/library.md, the faults in docs/formats.md, and the options in the
manual pages and completions.
"""

import re
import textwrap
from collections.abc import Callable, Collection
from functools import partial
from pathlib import Path

import completing
from contracts import CRATES, code, declared_in, needed, with_imports
from programs import NAMES, PROGRAM, Option, commands

ROOT = CRATES.parent
PAGE = ROOT / "docs" / "verification.md"
REFERENCE = ROOT / "docs" / "verification-reference.md"
LIBRARY = ROOT / "docs" / "library.md"
FORMATS = ROOT / "docs" / "formats.md"

# The code that docs/verification.md prints, in this order: the theorem for the shipped program, a small contract, and
# the rounds of the cipher that it names, with two of their steps. If a pattern has groups, only the groups count.
EXPLAINED = [
    r"^pub fn drive_host\b.*?(^    ensures .*?)(?=^\{)",
    r"^    pub fn block\b.*?(?=^    \{)",
    r"(^-- SubBytes \(.*?^$\n^-- ShiftRows \(.*?)^$.*?(^-- round n\b.*)\Z",
]
# The methods that call the standard library on files.
HOST_CALLS = ("open_to_read", "open_to_write", "metadata", "set_permissions", "set_len", "write_some", "sync_all")
# All trusted code, whose lines are counted without its contracts, by the first column of a table.
TRUSTED = {
    "`ansible_vault/src/main.rt`": [r"^fn words\(.*\Z"],
    "`vault_cli/src/system.rt`": [r"(^pub fn drive\b.*?\) -> Status\n).*?(^\{.*?^\})"],
    "`vault_files/src/system/host_files.rt`": [
        rf"(^    pub\(super\) fn {name}\(&mut self.*?\n)        ensures .*?(^    \{{.*?^    \}})" for name in HOST_CALLS
    ],
    "`vault_text/src/sink/write/flushing.rt`": [r"(^pub fn flush\b.*?\n)    ensures .*?(^\{.*?^\})"],
}
BLOCK = re.compile(r"(^```(?:rust|antt)\n)(.*?)(^```$)", re.MULTILINE | re.DOTALL)
# A call or a definition, and its file below crates/.
PLACE = re.compile(r"`([\w:]+)` in `(\w+/[\w/]+\.(?:rt|antt))`")
# A file of definitions after its number of lines, and several after the number that includes what they import.
SIZE = re.compile(r"\d+(?= lines of `(\w+\.antt)`)")
SIZES = re.compile(r"[\d,]+(?= lines \(((?:`\w+\.antt`(?:, )?)+)\))")
# The code that a reader must read: contracts up to the body, or to the empty line after a trait's method, ghost lines
# and constants.
CONTRACTS = re.compile(
    r"^ *(?:pub(?:\(\w+\))? )?(?:fn .*?(?=^ *\{|;\n\n)|ghost (?!use).*?;\n|const .*?;\n)", re.MULTILINE | re.DOTALL
)
# The programs of docs/library.md, and how the page prints one, after the path of its file.
PROGRAMS = "crates/vault_program_tests/src/library"
LISTING = re.compile(r"(?<=\bFrom `)crates/\S+/(\w+\.rt)`:\n\n```rust\n(?:.*\n)*?```$", re.MULTILINE)
FAULTS = re.compile(r"(?<=The columns are number, exit status and text\.\n\n)(?: .*\n)+")
# What the parsers give to the completion of a shell.
OF_PARSERS = re.compile(
    r"(?<=^# tools/write_documents writes what follows\.\n).*(?=^# Here it ends\.$)", re.MULTILINE | re.DOTALL
)
# The first list of a manual page's section, which contains no other one, without its first and last line.
OPTIONS = re.compile(r"(^\.Sh OPTIONS\n.*?^\.Bl -tag -width Ds\n)(.*?)(?=^\.El$)", re.MULTILINE | re.DOTALL)
# The macros of words, by how they begin. A single dash is a value.
MACROS = {"`": "Ql", "--": "Fl", "-": "Ql", "/": "Pa"}
LAST = (("--help",), ("--version",))


def to_read(file: Path) -> int:
    """Return the number of lines to read: in code, only the contracts; in definitions, everything."""
    text = file.read_text()
    return sum(len(part.splitlines()) for part in ([text] if file.suffix == ".antt" else CONTRACTS.findall(text)))


def definition_files() -> list[Path]:
    return [file for file in sum(needed(), []) if file.suffix == ".antt"]


def printed(pattern: str) -> str:
    """Return the code that matches a pattern in exactly one file, without an indentation that all lines have, empty
    lines, ghost lines and comments on code."""
    texts = [*code().values(), *(file.read_text() for file in definition_files())]
    matches = [re.search(pattern, text, re.MULTILINE | re.DOTALL) for text in texts]
    [found] = filter(None, matches)
    lines = textwrap.dedent("".join(found.groups()) or found[0]).splitlines()
    return "".join(f"{line}\n" for line in lines if line.strip() and not re.match(r" *(//|ghost )", line))


def size(found: re.Match[str]) -> str:
    [file] = [file for file in definition_files() if file.name == found[1]]
    return str(to_read(file))


def sizes(found: re.Match[str]) -> str:
    names = re.findall(r"[\w.]+", found[1])
    files = [file for file in definition_files() if file.name in names]
    assert len(files) == len(names), names
    return f"{sum(map(to_read, with_imports(files))):,}"


def place(found: re.Match[str]) -> str:
    """Return a place. If its file lacks the name, use the only other file that has it, or `none.rt`."""
    name, path = found[1].split("::")[-1], found[2]
    files = [*code(), *(str(file.relative_to(CRATES)) for file in definition_files())]
    having = [file for file in files if name in declared_in(file)]
    if path not in having:
        path = having[0] if len(having) == 1 else "none.rt"
    return f"`{found[1]}` in `{path}`"


def written(page: str) -> str:
    """Return a page, with everything that it takes from the code up to date."""
    left = map(printed, EXPLAINED)
    page = BLOCK.sub(lambda block: f"{block[1]}{next(left)}{block[3]}", page)
    trusted = {file: sum(printed(pattern).count("\n") for pattern in TRUSTED[file]) for file in TRUSTED}
    page = re.sub(r"\d+(?= lines of code)", str(sum(trusted.values())), page)
    for file, lines in trusted.items():
        page = re.sub(rf"(?<=^\| {re.escape(file)} \| )\d+", str(lines), page, flags=re.MULTILINE)
    page = re.sub(r"[\d,]+(?= lines to read)", f"{sum(map(to_read, needed()[0])):,}", page)
    return PLACE.sub(place, SIZES.sub(sizes, SIZE.sub(size, page)))


def listing(found: re.Match[str]) -> str:
    path = f"{PROGRAMS}/{found[1]}"
    return f"{path}`:\n\n```rust\n{(ROOT / path).read_text()}```"


def faults() -> str:
    """Return the number, the exit status and the texts of each fault."""
    code = (CRATES / "vault_fault" / "src" / "fault.rt").read_text()
    definitions = (CRATES / "vault_cli" / "specs" / "runs" / "Status.antt").read_text()
    numbers = re.findall(r"Fault::(\w+)(?:\(_\))? => (\d+),", code)
    texts = re.findall(r'Fault::(\w+)(?:\(Role::\w+\))? =>\s*"(.*)",', code)
    codes = dict(re.findall(r"^code_of (\w+) = (\d)$", definitions, re.MULTILINE))
    statuses = dict(re.findall(r"^status_of \(?(\w+).* = (\w+)$", definitions, re.MULTILINE))
    lines = []
    for fault, number in numbers:
        status = codes[statuses.get(fault, statuses["fault"])]
        of_fault = f"\n{' ' * 11}".join(text for name, text in texts if name == fault)
        lines.append(f"{number:>6}{status:>3}  {of_fault}\n")
    return "".join(lines)


def completion(script: str, shell: str) -> str:
    """Return a shell's completion with all options."""
    text = completing.WRITTEN[shell]()
    return OF_PARSERS.sub(lambda _: text, script)


def macro_line(word: str) -> str:
    """Return the line of a word that has a macro, with the punctuation around it."""
    opening, name, closing = re.findall(r"^(\(?)(.*?)([).,:]*)$", word)[0]
    macro = next((MACROS[start] for start in MACROS if name.startswith(start)), "Ar")
    shown = {"Fl": name[1:], "Ar": name.lower()}.get(macro, name.strip("`"))
    return " ".join([f".{macro}", *opening, shown, *closing])


def paragraph(text: str, values: Collection[str]) -> str:
    """Return a help text as sentences, with macros for options, paths, quotations and the names of values."""
    named = rf"`[^`]*`|--[a-z][\w-]*|-|/[\w/-]+|{'|'.join(map(re.escape, values))}"
    lines = []
    for sentence in re.split(r"[.;] ", text.rstrip(".")):
        parts = re.split(rf"((?<!\S)\(?(?:{named})[).,:]*(?!\S))", f"{sentence[0].upper()}{sentence[1:]}.")
        for number, part in enumerate(parts):
            plain = textwrap.wrap(part.strip(), 80, break_on_hyphens=False)
            lines += [macro_line(part)] if number % 2 else [re.sub(r"^(?=[.'])", r"\\&", line) for line in plain]
    return "".join(f"{line}\n" for line in lines)


def spelled(option: Option) -> str:
    value = f" Ar {option.value.lower()}" if option.value else ""
    return " , ".join(f"Fl {name[1:]}{value}" for name in option.names) or value.strip()


def options_of(program: str) -> list[Option]:
    """Return the arguments and options of a program and of its commands, the longest of their texts for each."""
    listed: dict[tuple[str, ...], Option] = {}
    for command in commands():
        if command.program == program:
            for option in [*filter(None, [command.argument]), *command.options]:
                key = option.names or (option.value,)
                listed[key] = max(listed.get(key, option), option, key=lambda each: len(each.text))
    return sorted(listed.values(), key=lambda option: bool(option.names) + (option.names[-1:] in LAST))


def with_options(page: str, program: str) -> str:
    """Return a page with the options of its program. What follows the first paragraph of an entry is the page's."""
    listed = options_of(program)
    values = {option.value for option in listed if option.value}

    def entries(section: re.Match[str]) -> str:
        parts = [part.partition("\n") for part in re.split(r"^\.It ", section[2], flags=re.MULTILINE)[1:]]
        # The first name is the second word, whatever the value is called.
        further = {heading.split()[1]: "".join(text.partition(".Pp\n")[1:]) for heading, _, text in parts}
        items = [(spelled(option), paragraph(option.text, values)) for option in listed]
        return section[1] + "".join(f".It {name}\n{text}{further.get(name.split()[1], '')}" for name, text in items)

    return OPTIONS.sub(entries, page, count=1)


# The function that updates each page and each completion.
WRITTEN: dict[Path, Callable[[str], str]] = {PAGE: written, REFERENCE: written, LIBRARY: partial(LISTING.sub, listing)}
WRITTEN[FORMATS] = partial(FAULTS.sub, lambda _: faults())
WRITTEN |= {ROOT / "man" / f"{name}.1": partial(with_options, program=name) for name in NAMES}
WRITTEN |= {ROOT / f"completions/{PROGRAM}.{shell}": partial(completion, shell=shell) for shell in completing.WRITTEN}

"""Find the files that the program's contracts need: the declarations of its calls and types, and the definitions that
their contracts name, directly or through imports.
"""

import re
from collections.abc import Iterator
from functools import cache
from pathlib import Path

CRATES = Path(__file__).resolve().parent.parent / "crates"

# The calls whose contracts are the theorem, and the other calls and types whose contracts the pages name. In a module
# named `laws`, every call counts.
THEOREM = [
    *("fn drive_over", "fn drive_host", "fn reject_words"),
    *("struct HostFiles", "enum HostCall", "impl<'a, R: Files> System for HostFiles"),
]
OTHERS = [
    *("fn drive", "fn drive_in_memory", "fn run", "fn run_to_output", "fn load"),
    *("fn prepare_encrypt_in", "fn prepare_decrypt_in", "fn prepare_rekey_in"),
    *("trait System", "struct FileOutput", "struct ReadSource", "struct WriteSink", "struct TextMemory", "enum Access"),
]
# An import of some names of a module, or of the module under another name.
IMPORT = re.compile(r"\buse Rattle\.(\w+)\.specs\.([\w.]+?)(?:\.\{([^}]*)\}| as (\w+))")


@cache
def code() -> dict[str, str]:
    """Return the code of the program and its libraries, by path below crates/."""
    files = (file for file in sorted(CRATES.glob("*/src/**/*.rt")) if file.relative_to(CRATES).parts[0] in crates())
    return {str(file.relative_to(CRATES)): file.read_text() for file in files}


@cache
def crates() -> list[str]:
    """Return the program and its libraries, each before the libraries that it uses."""
    libraries, _, _ = (CRATES.parent / "crates.txt").read_text().partition("\n# tests")
    return re.findall(r"^(\w+):", libraries, re.MULTILINE)[::-1]


def declared_in(path: str) -> set[str]:
    """Return the names of the functions and definitions in a file."""
    declared = re.compile(r"^\s*(?:pub\S* )*(?:fn|abbrev|unfoldable|record|data)(?: pub)? (\w+)", re.MULTILINE)
    return set(declared.findall((CRATES / path).read_text()))


def file_with(item: str) -> str:
    """Return the file that declares a function or a type."""
    declared = re.compile(rf"^(?:pub(?:\(crate\))? )?{item}\b", re.MULTILINE)
    [found] = [path for path, text in code().items() if declared.search(text)]
    return found


def imported(text: str, used: str | None = None) -> Iterator[Path]:
    """Yield the files of this repository whose names a text imports. With `used`, skip imports whose names it does not
    contain. Names under `declared` come from the prover: for constants and traits, yield the code; those of cases need
    no explanation. Names with a hyphen are lemmas, which only proofs need.
    """
    for crate, module, names, other_name in IMPORT.findall(text):
        folder = CRATES / crate
        parts = module.split(".")
        words = set(re.findall(r"\w+", names or other_name))
        is_lemma = names and all("-" in name for name in names.split(","))
        if is_lemma or used is not None and not words & set(re.findall(r"\w+", used)):
            continue
        # An import of a type's cases has the type's name after the module's.
        paths = [folder.joinpath("specs", *parts[:count]).with_suffix(".antt") for count in range(len(parts), 0, -1)]
        if parts[0] == "declared":
            is_code, modules = parts[-1] == "TheConstants" or "Ghosts" in names, filter(str.islower, parts[1:])
            paths = [folder.joinpath("src", *modules).with_suffix(".rt")] if is_code else []
        yield from [path for path in paths if path.is_file()][:1]


def named_by(item: str) -> Iterator[Path]:
    """Yield the files that the contract of a call names, or all contracts in the file of a type."""
    text = code()[file_with(item)]
    contract = re.search(rf"^(?:pub(?:\(crate\))? )?{item}\b.*?^\{{", text, re.MULTILINE | re.DOTALL)
    yield from imported(text, contract[0] if contract and item.startswith("fn ") else None)


def with_imports(files: list[Path]) -> list[Path]:
    """Return these files, and those that the definitions among them import, directly or not, each after one that names
    it."""
    found, waiting = dict[Path, None](), [*files]
    # The list grows meanwhile.
    for file in waiting:
        if file not in found:
            found[file] = None
            waiting += imported(file.read_text()) if file.suffix == ".antt" else []
    return list(found)


def reached(items: list[str], laws: list[Path]) -> list[Path]:
    """Return the files of these calls and types, and the files that their contracts name, directly or not, each after
    one that names it. Code is needed only for a trait's contracts or for constants, so skip its imports.
    """
    named = [file for item in items for file in named_by(item)]
    named += [file for law in laws for file in imported(law.read_text())]
    return list(dict.fromkeys([*(CRATES / file_with(item) for item in items), *laws, *with_imports(named)]))


@cache
def needed() -> tuple[list[Path], list[Path]]:
    """Return the files that the theorem needs, and the further files that the other contracts need."""
    theorem, laws = reached(THEOREM, []), sorted(CRATES.glob("*/src/laws.rt"))
    return theorem, [file for file in reached(OTHERS, laws) if file not in theorem]

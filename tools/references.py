"""Find what pages, comments and docstrings refer to and the repository lacks.

A reference is a path that begins with a top-level directory; or, in backquotes, any path or name. A path may lack its
first directories. A name is a module's, or occurs in code. Names joined by a dot occur there together.
"""

import re
from collections import Counter
from collections.abc import Iterator
from fnmatch import fnmatch
from pathlib import Path

# Where the comments of a file are, by its suffix or its name. A page is one comment.
PAGE, HASHES = r"[\s\S]+", r"(?<!\S)#.*"
PYTHON = rf'"""[\s\S]*?"""|{HASHES}'
COMMENTS = dict.fromkeys((".md", ".1", ".7", ".source", "control"), PAGE)
COMMENTS |= dict.fromkeys((".bash", ".fish", ".zsh", ".toml", "Makefile"), HASHES)
COMMENTS |= {".py": PYTHON, ".rt": r"//.*", ".antt": r"--[ -].*", ".c": r"//.*|/\*[\s\S]*?\*/"}
# A path has one of these suffixes, or ends with a slash.
QUOTED_PATH = re.compile(r"(?<!`)`([A-Za-z_*][\w./*-]*(?:/|\.(?:rt|antt|py|md|toml|txt|ini|c|edit)))`")
QUOTED_NAME = re.compile(r"(?<!`)`([A-Za-z_]\w*(?:(?:\.|::)\w+)*)(?:\(\))?`")
# Words in paths that stand for any text.
PLACEHOLDER = re.compile(r"\b(?:FILE|NAME|CRATE|WHAT_IS_WRONG)\b")
# Paths of what is built, and one that stands for none.
OTHER_PATHS = {"bin", "crates/*/out", "none.rt"}
# Names of other tools and of languages, parts of names, and names that CHANGELOG.md reports as gone.
OTHER_NAMES = {
    *("CFLAGS", "LDFLAGS", "RUSTFLAGS", "fg", "su"),
    *("Send", "bytes.hex", "u8::is_ascii_whitespace", "unsafe"),
    *("_in", "test_NAME"),
    *("FileSystem", "HostFiles", "set_output"),
}
# The number of references that must be found, so that none is missed unnoticed.
LEAST = {"pages": 500, "sources": 350}


def pattern_of_comments(file: Path) -> str:
    """Return what matches the comments of a file. It is empty if the file is neither a page nor a source."""
    if file.suffix:
        return COMMENTS.get(file.suffix, "")
    first_line = file.read_bytes().partition(b"\n")[0]
    if first_line.startswith(b"#!"):
        return PYTHON if b"python3" in first_line else HASHES
    return COMMENTS.get(file.name, "")


def find_endings(paths: list[Path]) -> set[str]:
    """Return these paths and their directories, with and without their first directories."""
    endings = set()
    for path in {each for path in paths for each in (path, *path.parents)}:
        endings |= {str(Path(*path.parts[start:])) for start in range(len(path.parts))}
    return endings


class Repository:
    """What there is to refer to: paths, modules, and names in code."""

    def __init__(self, paths: list[Path], code: str) -> None:
        self.paths = find_endings(paths)
        self.modules = find_endings([path.with_suffix("") for path in paths])
        self.code = code
        words = re.findall(r"\w+", code)
        # Pages name tests without their prefix.
        self.words = {*words, *(word.removeprefix("test_") for word in words)}
        directories = "|".join({re.escape(path.parts[0]) for path in paths if len(path.parts) > 1})
        installed = "/usr/share/doc/ansible-vault/"
        self.whole_path = re.compile(rf"(?<![\w/.~$*-])(?:{installed})?((?:{directories})/[\w/.*-]*[\w*])")

    def has_path(self, path: str) -> bool:
        pattern = PLACEHOLDER.sub("*", path).rstrip("/")
        return pattern in self.paths or any(fnmatch(each, pattern) for each in self.paths)

    def has_name(self, name: str) -> bool:
        if name.replace(".", "/") in self.modules:
            return True
        if "." in name:
            return re.search(rf"\b{re.escape(name)}\b", self.code) is not None
        return self.words.issuperset(name.split("::"))

    def find_references(self, text: str) -> Iterator[tuple[str, bool]]:
        """Yield each reference of a text, and whether it is alive."""
        for path in {*self.whole_path.findall(text), *QUOTED_PATH.findall(text)}:
            yield path, path.rstrip("/") in OTHER_PATHS or self.has_path(path)
        for name in {*QUOTED_NAME.findall(QUOTED_PATH.sub("", text))}:
            yield name, name in OTHER_NAMES or self.has_name(name)


def find_dead_references(root: Path, files: list[Path]) -> Iterator[str]:
    """Yield a message for each dead reference in files below a directory, and if there are too few to look at."""
    patterns = {}
    for file in files:
        pattern = pattern_of_comments(file)
        if pattern:
            patterns[file] = pattern
    texts = {file: file.read_text(encoding="utf-8") for file in patterns}
    code = "\n".join(re.sub(pattern, "", texts[file]) for file, pattern in patterns.items())
    repository = Repository([file.relative_to(root) for file in files], code)
    counts = Counter[str]()
    for file, pattern in patterns.items():
        comments = "\n".join(found[0] for found in re.finditer(pattern, texts[file]))
        for reference, is_alive in repository.find_references(comments):
            counts["pages" if pattern == PAGE else "sources"] += 1
            if not is_alive:
                yield f"{file.relative_to(root)}: there is no {reference}"
    for kind, least in LEAST.items():
        if counts[kind] < least:
            yield f"only {counts[kind]} references in {kind}, of at least {least}"

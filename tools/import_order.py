"""Find imports of the companions that go against the order of their modules in docs/architecture.md."""

import ast
import re
from collections.abc import Iterator
from pathlib import Path

PAGE = Path("docs", "architecture.md")
SECTION = "\n## The companions\n"
PACKAGE = "ansible_vault_companions"
# The first cell of a line has modules, or a directory of modules.
LINE = re.compile(r"^\| (`\w+`(?:, `\w+`)*) \|", re.MULTILINE)


def find_wrong_imports(root: Path, files: list[Path]) -> Iterator[str]:
    """Yield the imports from a later line of the page than the module's own, and what is in no line. The programs come
    after all modules."""
    order = read_order(root / PAGE)
    for file in files:
        own, *_ = file.relative_to(root / "companions").with_suffix("").parts[1:] or ("",)
        where = file.relative_to(root)
        if own not in (*order, "", "__init__"):
            yield f"{where}: {own} is in no line of {PAGE}"
        for line, name in list_imports(file):
            if order.get(name, -1) > order.get(own, len(order)):
                yield f"{where}:{line}: it imports {name}, which is below {own} in {PAGE}"


def read_order(page: Path) -> dict[str, int]:
    """Return the number of the line of each module and directory."""
    _, _, section = page.read_text(encoding="utf-8").partition(SECTION)
    lines = LINE.findall(section.partition("\n## ")[0])
    return {name: number for number, line in enumerate(lines) for name in re.findall(r"\w+", line)}


def list_imports(file: Path) -> Iterator[tuple[int, str]]:
    """Yield the line and the first name below the package of each import, also of those within functions."""
    for node in ast.walk(ast.parse(file.read_text(encoding="utf-8"))):
        names = [each.name for each in node.names] if isinstance(node, (ast.Import, ast.ImportFrom)) else []
        above = [node.module or ""] if isinstance(node, ast.ImportFrom) else []
        for name in names:
            first, *below = ".".join([*above, name]).split(".")
            if first == PACKAGE and below:
                yield node.lineno, below[0]

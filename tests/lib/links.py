"""The links of the documents."""

import re
from collections.abc import Iterator
from pathlib import Path


def dead_links(page: Path) -> Iterator[str]:
    """Yield the links of a page to a missing file or heading."""
    for link in re.findall(r"\]\(([^)]*)\)", page.read_text()):
        path, _, heading = link.partition("#")
        file = page.parent / path if path else page
        is_dead = not file.exists() or heading and heading not in headings(file)
        if is_dead and not re.match("https?://", link):
            yield link


def headings(page: Path) -> set[str]:
    """Return the fragments of the links to a page's headings."""
    text = re.sub(r"^```.*?^```$", "", page.read_text(), flags=re.MULTILINE | re.DOTALL) if page.is_file() else ""
    titles = re.findall(r"^#+ (.*)$", text, re.MULTILINE)
    return {re.sub(r"[^\w -]", "", title.lower()).replace(" ", "-") for title in titles}

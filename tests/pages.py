"""The manual pages agree with the code of the companions, apart from options, which tools/write_documents writes.
`groff` shows the pages without a warning, and tools/lint also has mandoc check them."""

import re
from operator import attrgetter
from pathlib import Path

import pytest

from lib.needs import needs
from lib.paths import COMPANIONS, MANUALS, PAGE, ROOT, sections
from lib.processes import run_text

COLUMNS = 80
OF_COMPANIONS = {name: sections(PAGE.with_name(f"{name}.1")) for name in COMPANIONS}


def test_variables() -> None:
    """A page names each variable that the companions read from the environment."""
    code = "".join(path.read_text() for path in [*COMPANIONS.values(), *(ROOT / "companions").rglob("*.py")])
    read = set(re.findall(r'environ(?:\.get\(|\[)"([A-Z_]+)"', code) + re.findall(r'"(ANSIBLE_[A-Z_]+)", "', code))
    text = "".join(page.get("ENVIRONMENT", "") for page in map(sections, MANUALS))
    assert len(read) > 5
    assert read - {*re.findall(r"\bEv ([A-Z_]+)", text)} == set()


def test_references() -> None:
    """The program's page lists the companions in the words of their own pages, and each page it refers to exists."""
    items = re.findall(r"^\.It Xr (\S+) 1 Ta (.+)$", sections(PAGE)["COMPANIONS"], re.MULTILINE)
    assert dict(items) == {name: page["NAME"].partition(".Nd ")[2].strip() for name, page in OF_COMPANIONS.items()}
    references = set().union(*(re.findall(r"\bXr (ansible-vault\S*) ([17])", page.read_text()) for page in MANUALS))
    assert {".".join(each) for each in references} == {page.name for page in MANUALS}


@pytest.mark.parametrize("page", MANUALS, ids=attrgetter("stem"))
def test_page_as_it_is_shown(page: Path) -> None:
    needs("groff")
    done = run_text(["groff", "-ww", "-mdoc", "-T", "utf8", "-P", "-c", str(page)])
    lines = re.sub(".\b", "", done.stdout).strip().split("\n")
    assert (done.stderr, [line for line in lines if len(line) > COLUMNS]) == ("", []), "it fits into a terminal"

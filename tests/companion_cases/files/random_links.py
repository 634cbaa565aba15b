"""Random trees of directories, files and links: a search finds what the system finds, and follows no link out."""

import os
import tempfile
from pathlib import Path
from typing import NamedTuple

import hypothesis
import pytest
from hypothesis import strategies as st

from ansible_vault_companions.files.searching import Search
from ansible_vault_companions.files.link_bounds import find_repository

# Names that are likely to meet, of directories, of a file in each, and of links.
FOLDERS, FILE, LINKS = ("p", "q"), "f", ("k", "l", "m")
WAYS = st.lists(st.sampled_from([*FOLDERS, *LINKS, os.pardir, os.pardir, os.curdir, ""]), max_size=4)
ENDS = st.sampled_from([FILE, FILE, FILE, *FOLDERS, *LINKS, os.pardir])
TEXTS = st.builds(lambda way, end: os.path.join("", *way, end), WAYS, ENDS)


class Link(NamedTuple):
    """A link in a directory. Its text leads from there or, with the whole path before it, from the top."""

    folder: tuple[str, ...]
    name: str
    text: str
    is_absolute: bool


PLACES = st.lists(st.sampled_from(FOLDERS), max_size=3).map(lambda names: tuple(names))
TREES = st.lists(st.builds(Link, PLACES, st.sampled_from(LINKS), TEXTS, st.booleans()), max_size=8)


def make_tree(tree: Path, folders: list[tuple[str, ...]], links: list[Link]) -> None:
    """Make directories, with a file in each, and links between them, inside of `top` and outside."""
    for folder in {FOLDERS, FOLDERS[::-1], *folders, *(link.folder for link in links)}:
        for top in ("top", "out"):
            place = tree.joinpath(top, *folder)
            place.mkdir(parents=True, exist_ok=True)
            for each in (place, *place.parents):
                if tree in each.parents:
                    (each / FILE).touch()
    for link in links:
        path = tree.joinpath("top", *link.folder, link.name)
        if not os.path.lexists(path):
            path.symlink_to(f"{tree}/top/{link.text}" if link.is_absolute else link.text)


def list_links(top: Path) -> list[Path]:
    """Return all links in the tree, in which no link is followed."""
    return [Path(folder, name) for folder, below, names in os.walk(top) for name in (*below, *names) if name in LINKS]


def find_real(path: Path) -> str:
    """Return the real path by the system's rules; empty if there is nothing."""
    try:
        return os.path.realpath(path, strict=True)
    except OSError:
        return ""


def check_search(tree: Path) -> int:
    """Compare what is found with what the system says. Return how many links lead to a file."""
    top = tree / "top"
    search = Search([str(top)], ())
    found = {path: each for each in search.list_files() for path in each.paths}
    number = 0
    links = {link: find_real(link) for link in list_links(top)}
    all_within = all(not real or f"{real}/".startswith(f"{top}/") for real in links.values())
    for link, real in links.items():
        if os.path.isfile(link):
            number += 1
            each = found[str(link)]
            way = next(way for way in each.ways if way.path == str(link))
            assert each.target == real, "the real path"
            assert way.place == str(link), "where the link is"
            assert way.refusal or real.startswith(f"{top}/"), "a link that leads out is refused"
            assert not (way.refusal and all_within), f"no link leads out: {way.refusal}"
        elif os.path.isdir(link):
            assert str(link) not in found and search.folders[str(link)] == real, "a directory"
    files = {str(Path(folder, FILE)) for folder, _, names in os.walk(top) if FILE in names}
    assert files <= {path for path, each in found.items() if not each.refusal}, "each file is found"
    return number


@pytest.mark.parametrize("is_repository", (True, False))
def test_random_links(tmp_path: Path, request: pytest.FixtureRequest, is_repository: bool) -> None:
    """Each link to a file leads where the system says, unless it is refused, and each that leads out is refused."""
    numbers = []

    @hypothesis.seed(request.config.getoption("--seed"))
    @hypothesis.settings(max_examples=200, deadline=None, database=None)
    @hypothesis.given(st.lists(PLACES, max_size=3), TREES)
    def check(folders: list[tuple[str, ...]], links: list[Link]) -> None:
        tree = Path(tempfile.mkdtemp(dir=tmp_path))
        make_tree(tree, folders, links)
        if is_repository:
            (tree / "top/.git").mkdir()
        numbers.append(check_search(tree))

    check()
    assert sum(numbers) > 50, "links lead to files"


def test_repositories(tmp_path: Path, request: pytest.FixtureRequest) -> None:
    """The repository of a directory is the nearest one above, in whatever order directories are looked at."""

    @hypothesis.seed(request.config.getoption("--seed"))
    @hypothesis.settings(max_examples=100, deadline=None, database=None)
    @hypothesis.given(st.sets(PLACES, max_size=3), st.lists(PLACES, min_size=1, max_size=6))
    def check(repositories: set[tuple[str, ...]], folders: list[tuple[str, ...]]) -> None:
        tree = Path(tempfile.mkdtemp(dir=tmp_path))
        for place in (*repositories, *folders):
            tree.joinpath(*place).mkdir(parents=True, exist_ok=True)
        for place in repositories:
            tree.joinpath(*place, ".git").mkdir()
        for folder in folders:
            above = [folder[:size] for size in range(len(folder), -1, -1) if folder[:size] in repositories]
            expected = str(tree.joinpath(*above[0])) if above else None
            assert find_repository(str(tree.joinpath(*folder))) == expected

    check()

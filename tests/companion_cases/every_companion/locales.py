"""Names and texts are UTF-8, whatever the locale says: companions answer in each as in a locale with UTF-8."""


import pytest

from companion_cases import CHECK, EDIT, HOOK, ROTATE, TEXTCONV, WITH, Companions, Place, block, sealed, to_new
from companion_cases.repository import committed, under_git
from lib.cases import answer_of
from lib.needs import needs
from lib.processes import run_text

# Characters of one byte, Cyrillic ones, characters of several bytes, and some of which a byte is that of a backslash.
CHARACTER_SETS = {"latin": ("en_US", "ISO-8859-1"), "cyrillic": ("ru_RU", "KOI8-R")}
CHARACTER_SETS |= {"japanese": ("ja_JP", "EUC-JP"), "chinese": ("zh_CN", "GB18030")}
KEYS = ["schlüssel", "ключ", "鍵", "naïve"]
# One is no UTF-8.
NAMES = ["ü.yml", "ключ.yml", "\udcfc.yml"]


@pytest.fixture(scope="module", params=CHARACTER_SETS.values(), ids=[*CHARACTER_SETS])
def locale(request: pytest.FixtureRequest, tmp_path_factory: pytest.TempPathFactory) -> dict[str, str]:
    """Make a locale, and return the variables that choose it."""
    needs("localedef")
    language, characters = request.param
    path = tmp_path_factory.mktemp("locales") / f"{language}.{characters}"
    done = run_text(["localedef", f"--inputfile={language}", f"--charmap={characters}", str(path)])
    assert path.is_dir(), done.stderr
    return {"LOCPATH": str(path.parent), "LC_ALL": path.name}


def put_files(place: Place) -> None:
    """Commit files with such names and keys, and stage plaintext over the values of one."""
    under_git(place, "")
    values = b"".join(block("old", name=key) for key in KEYS)
    for name in NAMES:
        committed(place, name, values)
    committed(place, "v.yml", sealed("old", "текст\n".encode()))
    place.put(NAMES[0], b"".join(f"{key}: plain\n".encode() for key in KEYS))
    place.shell("git add --all")
    place.environment["EDITOR"] = place.script('sed -i s/e/ё/ "$1"', "editor")


def run_all(cases: Companions, locale: dict[str, str]) -> dict[str, object]:
    """Return what each companion answers in a locale, and then what the files have, in plaintext."""
    place = cases.place()
    put_files(place)
    old, file = place.by_file("old"), NAMES[1]
    lines = {
        "the hook": [HOOK],
        "the hook of all": [HOOK, "--all"],
        "the check": [CHECK, *old, "."],
        "the check in JSON": [CHECK, *old, "--json", "."],
        "textconv": [TEXTCONV, *old, file],
        "view": [WITH, "view", *old, "v.yml"],
    }
    lines |= {f"the value {key}": [TEXTCONV, *old, "--value", key, file] for key in KEYS}
    lines |= {"the edit": [EDIT, *old, file], "the rotation": [ROTATE, *to_new(place), "."]}
    lines |= {f"{name} afterwards": [TEXTCONV, *place.by_file("new"), name] for name in [*NAMES, "v.yml"]}
    answers = {what: answer_of(place.run(*words, **locale)) for what, words in lines.items()}
    return {what: [str(part).replace(str(place.path), "PLACE") for part in answers[what]] for what in lines}


def test_locales(cases: Companions, git: None, locale: dict[str, str]) -> None:
    expected, answers = run_all(cases, {"LC_ALL": "C.UTF-8"}), run_all(cases, locale)
    for what in expected:
        assert answers[what] == expected[what], what

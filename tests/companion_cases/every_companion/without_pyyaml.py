"""Without PyYAML, everything that needs no YAML works, and the rest stops and names the missing package."""

import shutil
import sys

from companion_cases import (
    CHANGE,
    CHANGED,
    CHECK,
    HOOK,
    MERGE,
    NOT_DECRYPTED,
    ROTATE,
    TEXTCONV,
    WITH,
    Place,
    block,
    edit,
    ended,
)
from companion_cases import first_line, sealed, silent, to_new, versions
from lib.needs import needs


def test_without_pyyaml(place: Place) -> None:
    """No half of the envelopes is checked or rotated, and git shows a file as it is."""
    needs("git")
    # Copies of the companions are beside a module `yaml` that cannot be imported.
    folder = shutil.copytree(place.companions, place.path / "without")
    (folder / "yaml.py").write_text("raise ModuleNotFoundError\n")
    place.environment["PATH"] = f"{folder}:{place.environment['PATH']}"
    old = place.by_file("old")
    content = block("old", b"one")
    package = "python3-yaml"
    place.put("all.yml", sealed("old"))
    place.put("vars.yml", content)
    silent("edit", edit(place, CHANGE, *old, "all.yml"))
    for words, before_it in (([WITH, "view"], ""), ([TEXTCONV], first_line())):
        assert place.run(*words, *old, "all.yml").stdout == before_it + CHANGED.decode(), "it is edited and shown"
    base, ours, theirs = (sealed("old", text) for text in (b"a: 1\n\nb: 1\n", b"a: 2\n\nb: 1\n", b"a: 1\n\nb: 2\n"))
    silent("merge", place.run(MERGE, *old, *versions(place, "a.yml", base, ours, theirs)))
    before = place.files()
    needing = [[CHECK, *old, "."], [ROTATE, *to_new(place), "."], [TEXTCONV, *old, "--value", "secret", "vars.yml"]]
    for words in [*needing, [HOOK], [HOOK, "--all"]]:
        done = place.run(*words)
        ended(words[0], done, 1, f"PyYAML, which reads YAML, is missing for {sys.executable}: ", package)
        assert done.stdout == ""
    ended("edit", edit(place, "touch started", *old, "vars.yml"), 1, "vars.yml: PyYAML, ", package)
    done = place.run(TEXTCONV, *old, "vars.yml")
    assert done.returncode == 0, "git continues"
    assert done.stdout == NOT_DECRYPTED + content.decode(), "git shows it as it is"
    assert done.stderr.startswith(f"{TEXTCONV}: vars.yml: shown as it is: PyYAML, ") and package in done.stderr, done
    assert place.files() == before, "the files stay"

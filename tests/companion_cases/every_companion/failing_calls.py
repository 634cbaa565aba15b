"""A call that fails is reported with the path that it was about, in every companion."""

import os
import re
from random import Random

import pytest

from companion_cases import CHANGE, CHECK, EDIT, MERGE, ROTATE, TEXT, TEXTCONV, WITH, Place, block, run_changed, sealed
from companion_cases import to_new, versions

# Lets a call with a path fail, and notes the path. How many directories are above the tree depends on the machine, so
# those do not count.
FAIL = """
import builtins, itertools, pathlib

note = open
calls = itertools.count()
above = [sys.argv[0], *map(str, pathlib.Path.cwd().parents[1:])]

def failing(call):
    def make(path, *words, **options):
        if isinstance(path, str) and path not in above and next(calls) == {}:
            with note("../failed", "w") as file:
                file.write(path)
            raise OSError(5, "broken", path)
        return call(path, *words, **options)
    return make

for name in "open stat lstat listdir mkdir unlink rmdir readlink scandir replace".split():
    setattr(os, name, failing(getattr(os, name)))
builtins.open = failing(open)
"""
COUNT, CALLS = 80, 30


@pytest.mark.parametrize("part", range(4))
def test_paths(place: Place, part: int) -> None:
    """The message names the path, unless that is the one of the file with which it begins anyway, or the temporary file
    in a directory that it names."""
    files = versions(place, "a.yml", block("old") + b"x: 1\n", block("old"), block("old") + b"y: 1\n")
    place.put("b.yml", sealed("old"))
    place.put("../ansible.cfg", b"[defaults]\nvault_identity_list = dev@secrets/dev\n")
    place.environment |= {"EDITOR": place.script(CHANGE, "editor"), "ANSIBLE_CONFIG": str(place.path / "ansible.cfg")}
    old = place.by_file("old")
    lines = [[EDIT, *old, "a.yml"], [EDIT, *old, "b.yml"], [ROTATE, *to_new(place), "."], [CHECK, *old, "."]]
    lines += [[TEXTCONV, *old, "a.yml"], [WITH, "decrypt", *old, "b.yml"], [MERGE, *old, *files]]
    random, named = Random(part), 0
    for _number in range(COUNT // 4):
        companion, *words = random.choice(lines)
        place.put("a.yml", block("old") + b"x: 1\n")
        place.put("b.yml", sealed("old", TEXT))
        done = run_changed(place, companion, FAIL.format(random.randrange(CALLS)), words)
        assert "Traceback" not in done.stderr, done
        reports = [line for line in done.stderr.splitlines() if "broken" in line]
        for report in reports:
            path = place.get("../failed").decode()
            own = re.match(rf"{companion}: ([^:]+): broken", report)
            is_own = own is not None and os.path.abspath(place.tree / own[1]) == os.path.abspath(place.tree / path)
            folder = os.path.dirname(path) if "ansible-vault-" in path else path
            assert is_own or folder in report, (path, report)
            named += 1
    assert named, "some calls fail"

"""Run the README's commands with a prompt in order, with a program as `ansible-vault` and the companions beside it, and
compare their output. `newcomer.py` types the other commands.

`first_page.py PROGRAM` prints them, and fails if one prints anything other than what the README says.
"""

import os
import pathlib
import subprocess
import sys
import tempfile

from lib.installed import run_make
from lib.paths import COMPANIONS, README
from lib.processes import run_text
from lib.readme import steps
from lib.scripts import searched_first, write_script

# In place of the reader, who edits a vault as the comments say: it is new, or has what was written first.
EDITOR = 'if [ -s "$1" ]; then sed -i s/5432/5433/ "$1"; else echo "port: 5432" > "$1"; fi'


def test_demo(program: str) -> None:
    assert len(steps(README.read_text())) == README.read_text().count("\n    $ ") > 4, "each example is a step"
    done = run_make(program, "demo")
    assert (done.returncode, done.stderr) == (0, ""), done.stdout


def show(program: str) -> bool:
    """Print the session, and return whether the README agrees."""
    agrees = True
    with tempfile.TemporaryDirectory() as top:
        folder, tools = pathlib.Path(top, "folder"), pathlib.Path(top, "tools")
        folder.mkdir()
        editor = write_script(tools / "editor", EDITOR)
        environment = searched_first(tools) | {"HOME": top, "ANSIBLE_EDITOR": editor}
        for name, path in (*COMPANIONS.items(), ("ansible-vault", pathlib.Path(program))):
            (tools / name).symlink_to(path)
        for step in steps(README.read_text()):
            command = ["sh", "-c", step.command]
            printed = run_text(command, cwd=folder, env=environment, stderr=subprocess.STDOUT).stdout
            print(f"$ {step.command}\n{printed}", end="", flush=True)
            agrees &= step.is_met_by(printed)
    return agrees


if __name__ == "__main__":
    if not show(os.path.abspath(sys.argv[1])):
        sys.exit("The README says otherwise")

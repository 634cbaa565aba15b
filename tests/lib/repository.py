"""A git repository where the shell commands of a document run."""

import os
import pathlib
import re
import termios

from companion_cases import Place, wait_until
from companion_cases.repository import AUTHOR
from lib.paths import ROOT
from model.vaults import seal, yaml_block
from shells import all_shown, bash_at_terminal

# The last one contains characters that some shells' `echo` would interpret.
PASSWORDS = {
    "old.pass": b"the old one",
    "new.pass": b"the new one",
    "dropped.pass": b"another new one",
    "prod.pass": b"in production",
    "ci.pass": rb"of \CI\t\\",
}
# The document's lines for .gitattributes.
MARKS = "*.vault.yml diff=ansible-vault merge=ansible-vault\nvault.yml diff=ansible-vault merge=ansible-vault\n"
SETTINGS = "[defaults]\nvault_identity_list = prod@~/.vault/prod.pass\n"


def without_reports(errors: str) -> str:
    """Return what programs print on standard error, without the lines in which edits say what they encrypted."""
    return re.sub("(?m)^ansible-vault-edit: .*: encrypted .*\n", "", errors)


def vault(text: bytes, password: str = "prod.pass", label: str = "prod") -> bytes:
    return seal(PASSWORDS[password], text, label.encode())


def block(name: str, text: bytes, password: str = "prod.pass") -> bytes:
    return yaml_block(vault(text, password), name.encode())


class Repository(Place):
    """A place under git. The password files are in it, for the examples of the manual page, and in ~/.vault."""

    def __init__(self, path: pathlib.Path, program: str):
        named = path / "ansible-vault"
        named.symlink_to(program)
        super().__init__(path, named, ROOT / "companions")
        self.environment |= AUTHOR
        self.shell("git init -q && echo '*.pass' > .gitignore")
        for name, password in PASSWORDS.items():
            self.put(name, password + b"\n")
            self.put(f"../.vault/{name}", password + b"\n")
        (path / ".vault").chmod(0o700)

    def shown(self, text: str, **variables: str) -> str:
        """Run shell commands, which must end well, and return what they print."""
        done = self.shell(text, **variables)
        assert (done.returncode, without_reports(done.stderr)) == (0, ""), text
        return done.stdout

    def pasted(self, shell: str, password: str) -> str:
        """Paste shell commands into a terminal, type the password when asked, and return what it shows."""
        with bash_at_terminal(self.tree, self.environment | {"PS1": "$ ", "TERM": "dumb"}) as terminal:
            os.write(terminal, shell.encode())
            # It reads whole lines without echo then. While a shell edits a line, it reads key by key.
            both = termios.ICANON | termios.ECHO
            wait_until(lambda: termios.tcgetattr(terminal)[3] & both == termios.ICANON, "the question")
            os.write(terminal, f"{password}\nexit\n".encode())
            return all_shown(terminal).decode()

"""Files that are there and files that are not: what `create` and `edit` of the alias do, and Ansible's own tool."""

import pytest

from companion_cases import EDIT, WITH, Companions, Place, decrypted, described, ended, sealed
from companion_cases.terminal import FOR_ANSIBLE, type_for_ansible
from lib.needs import needs_ansible

OLD = "--vault-password-file=../secrets/old"
# Editors, and what they leave in a new file.
EDITORS = {"true": b"", ': > "$1"': b"", 'echo more > "$1"': b"more\n"}


@pytest.mark.parametrize("editor", EDITORS)
def test_what_is_created(cases: Companions, editor: str) -> None:
    """As with Ansible's tool, a new vault is made even if nothing is saved."""
    for tool in (WITH, needs_ansible()):
        place = cases.place()
        variables = {"EDITOR": place.script(editor, "editor")} | ({} if tool == WITH else FOR_ANSIBLE)
        line = f"create {OLD} new.yml"
        done = place.run(tool, *(line if tool == WITH else type_for_ansible(line)).split(), **variables)
        assert (done.returncode, done.stdout, place.names()) == (0, "", ["new.yml"]), done
        assert decrypted("old", place.get("new.yml")) == EDITORS[editor], f"the text of {tool}"
        assert place.mode("new.yml") == "0o600", f"the mode of {tool}"
        told = f"{EDIT}: new.yml: the new vault is empty; if the editor returned at once, give it an option to wait"
        assert tool != WITH or (told in done.stderr) == (EDITORS[editor] == b""), done


def test_failing_editors(place: Place) -> None:
    """An editor that fails makes no vault."""
    done = place.run(WITH, "create", OLD, "new.yml", EDITOR="false")
    ended("create", done, 1, f"{EDIT}: new.yml: the editor failed (false, status 1); nothing was changed\n")
    assert place.names() == []


MISSING = "No such file or directory"
NO_FOLDER = "there is no directory {}/none; make it first\n"
# Command lines that name what is not there, or is there already, the status, and the message. No editor is started, and
# nobody is asked for a password.
REFUSED = {
    f"{WITH} edit {OLD} typo.yml": (3, f"{WITH}: typo.yml: {MISSING}\n"),
    f"{WITH} edit typo.yml": (3, f"{WITH}: typo.yml: {MISSING}\n"),
    f"{WITH} edit {OLD} a.yml typo.yml": (3, f"{WITH}: typo.yml: {MISSING}\n"),
    f"{WITH} edit none/typo.yml": (3, f"{WITH}: none/typo.yml: {MISSING}\n"),
    f"{WITH} edit .": (3, f"{WITH}: .: Is a directory\n"),
    f"{WITH} create a.yml": (1, f"{WITH}: a.yml exists already; use `edit`\n"),
    f"{WITH} create link.yml": (1, f"{WITH}: link.yml exists already; use `edit`\n"),
    f"{WITH} edit {OLD} a.yml link.yml": (3, f"{WITH}: link.yml: {MISSING}\n"),
    f"{WITH} create none/new.yml": (1, f"{WITH}: none/new.yml: {NO_FOLDER}"),
    f"{WITH} create none/in/new.yml": (1, f"{WITH}: none/in/new.yml: there is no directory {{}}/none/in; make it"),
    f"{WITH} encrypt {OLD} --output none/new.yml a.yml": (1, f"{WITH}: none/new.yml: {NO_FOLDER}"),
    f"{WITH} encrypt_string {OLD} --output none/new.yml a b": (1, f"{WITH}: none/new.yml: {NO_FOLDER}"),
    f"{EDIT} {OLD} none/new.yml": (1, f"{EDIT}: none/new.yml: {NO_FOLDER}"),
}


@pytest.mark.parametrize("line", REFUSED)
def test_refused(place: Place, line: str) -> None:
    place.put("a.yml", sealed("old"))
    (place.tree / "link.yml").symlink_to("nowhere")
    before, (status, message) = place.names(), REFUSED[line]
    done = place.run("setsid", "--wait", *line.split(), EDITOR=place.script("touch ../started", "editor"))
    assert (done.returncode, message.format(place.tree) in done.stderr) == (status, True), done
    assert place.names() == before, "no file is made"
    assert place.get("a.yml") == sealed("old"), "the old one stays"
    assert not (place.path / "started").exists()


def test_edit_makes_new_ones(place: Place) -> None:
    """The program of its own makes a vault of a missing file, but an empty one only if that is wanted."""
    assert place.run(EDIT, OLD, "new.yml", EDITOR="true").returncode == 0
    assert place.names() == []
    assert place.run(EDIT, OLD, "--allow-empty", "new.yml", EDITOR="true").returncode == 0
    assert decrypted("old", place.get("new.yml")) == b""
    assert place.run(EDIT, OLD, "other.yml", EDITOR=place.script('echo more > "$1"', "editor")).returncode == 0
    assert decrypted("old", place.get("other.yml")) == b"more\n"
    place.put("a.yml", sealed("old"))
    done = place.run(EDIT, OLD, "--allow-empty", "a.yml", EDITOR="true")
    ended("one that is there", done, 0, "nothing was changed; ")
    assert place.get("a.yml") == sealed("old")


def test_editors(place: Place) -> None:
    """The editor of ANSIBLE_EDITOR goes first, but none that ansible.cfg names: it may be a stranger's."""
    editors = {name: place.script(f'echo {name} > "$1"', name) for name in ("ansible", "visual", "editor", "file")}
    place.put("ansible.cfg", f"[defaults]\neditor = {editors['file']}\n".encode())
    variables = {"EDITOR": editors["editor"]}
    for name, variable in (("editor", "EDITOR"), ("visual", "VISUAL"), ("ansible", "ANSIBLE_EDITOR")):
        variables |= {variable: editors[name]}
        place.put("a.yml", sealed("old"))
        assert place.run(WITH, "edit", OLD, "a.yml", **variables).returncode == 0
        assert described(place.get("a.yml"))[1] == ("old", f"{name}\n".encode())

"""ansible-vault-edit: what an edit of a vault or of values changes, what it leaves alone, and where plaintext is."""

import os
import re
from typing import NamedTuple

import pytest

from companion_cases import AWKWARD, CHANGE, CHANGED, EDIT, TEXT, Done, Place, block, decrypted, edit, ended
from companion_cases import check_answer, described, envelope_of, sealed, silent, texts


@pytest.mark.parametrize("name", AWKWARD)
def test_what_changes(place: Place, name: str) -> None:
    """An editor may remove the password file, and leave files."""
    place.put(name, sealed("old"), 0o640)
    leaves = 'rm ../secrets/old; cp "$1" "$1~"; ln -s nowhere "${1%/*}/.#link"'
    silent("an edit", edit(place, f"{CHANGE}; {leaves}", *place.by_file("old"), "--", name))
    envelope = place.get(name)
    assert (decrypted("old", envelope), place.mode(name)) == (CHANGED, "0o640"), "the text is changed, the mode stays"
    assert envelope.startswith(b"$ANSIBLE_VAULT;1.1;AES256\n"), "without a label"
    assert (place.names(), place.left()) == ([name], []), "no other file is left"


@pytest.mark.parametrize("folder", ("{}/runtime", "../runtime", "{}/repository/runtime", "/nowhere"))
def test_where_the_plaintext_lies(place: Place, folder: str) -> None:
    """What is relative may belong to a stranger. `where_the_plaintext_is` has other directories."""
    place.put("all.yml", sealed("old"))
    for name in (".git", "runtime"):
        (place.path / "repository" / name).mkdir(parents=True)
    look = 'stat -c "%a %n" "${1%/*}" "$1" > ../seen'
    edit(place, look, *place.by_file("old"), "all.yml", XDG_RUNTIME_DIR=folder.format(place.path))
    wanted = folder.format(place.path) if folder.startswith("{}") else "/dev/shm"
    lines = (place.path / "seen").read_text().splitlines()
    private = lines[0].removeprefix("700 ")
    assert (lines[1:], os.path.dirname(private)) == ([f"600 {private}/all.yml"], str(wanted)), "both are private"
    assert os.path.basename(private).startswith("ansible-vault-"), "the name that users look for after a crash"
    assert not os.path.exists(private), "it is gone"


UNCHANGED = "nothing was changed; if the editor returned at once, give it an option to wait"
LEFT_NONE = ".yml: the editor left no file; nothing was changed\n"


class Stay(NamedTuple):
    """What an editor does, the status, and the reason."""

    editor: str
    status: int
    why: str


STAYS = [
    Stay(editor="true", status=0, why=UNCHANGED),
    Stay(editor="exit 3", status=1, why="status 3); nothing was changed\n"),
    Stay(editor='rm -r "${1%/*}"', status=1, why=LEFT_NONE),
]


@pytest.mark.parametrize("editor, status, why", STAYS)
def test_what_stays(place: Place, editor: str, status: int, why: str) -> None:
    """If an edit fails or changes nothing, the vault is not even written, no new one is made, and nothing is left."""
    place.put("all.yml", vault := sealed("old"))
    before = (place.tree / "all.yml").stat()
    for name in ("all.yml", "new.yml"):
        ended(name, edit(place, editor, *place.by_file("old"), name), status, why)
    after = (place.tree / "all.yml").stat()
    assert (after.st_ino, after.st_mtime_ns) == (before.st_ino, before.st_mtime_ns), "the vault is not written"
    assert (place.files(), place.left()) == ({"all.yml": vault}, []), "it stays, and nothing is left"


BOTH = "--vault-id prod@../secrets/dev --vault-id dev@../secrets/prod"
OF_ANOTHER = "its label is prod, but dev@../secrets/prod, a password"
# A value that its own label allows to encrypt again.
ALLOWED = block("prod", label="dev", name="a")
# Files, and why the edit of one is refused. A secret with another label opens each vault and value named `secret`.
REFUSED = {
    "odd.yml": "its label a@b has an @, so no option can name it",
    "closed.yml": "line 2: secret: no secret decrypts this vault (label default; tried prod@../secrets/dev, dev@",
    "vault.yml": OF_ANOTHER,
    "values.yml": f"line 2: secret: {OF_ANOTHER}",
    "first.yml": f"line 2: secret: {OF_ANOTHER}",
    "second.yml": f"line {len(ALLOWED.splitlines()) + 2}: secret: {OF_ANOTHER}",
    "tags.yml": "line 1: `%TAG` may make `!vault` another tag; change this file with another editor",
}


def test_labels(place: Place) -> None:
    """A refused edit does not start the editor. If another label is permitted, that label and its secret stay."""
    place.put("odd.yml", sealed("dev", label="a@b"))
    place.put("closed.yml", block("old"))
    place.put("vault.yml", sealed("prod", label="prod"))
    place.put("values.yml", block("prod", label="prod"))
    place.put("first.yml", block("prod", label="prod") + ALLOWED)
    place.put("second.yml", ALLOWED + block("prod", label="prod"))
    place.put("tags.yml", b"# x\r%TAG ! !x\n---\n" + block("dev", label="prod"))
    before = place.files()
    whys = [f"{EDIT}: {name}: {why}" for name, why in REFUSED.items()]
    ended("the edit", edit(place, "touch ../started", *BOTH.split(), *REFUSED), 1, *whys)
    assert not (place.path / "started").exists(), "no editor is started"
    assert (place.files(), place.left()) == (before, []), "all files stay"
    done = edit(place, CHANGE, "--any-label", *BOTH.split(), "vault.yml", "values.yml")
    check_answer("it is permitted", done, errors=f"{EDIT}: values.yml: encrypted secret (label prod)\n")
    for envelope in (envelope_of(place.get(name)) or b"" for name in ("vault.yml", "values.yml")):
        assert envelope.startswith(b"$ANSIBLE_VAULT;1.2;AES256;prod\n"), "the label stays"
        assert decrypted("prod", envelope) == CHANGED, "the password stays"


def test_editors(place: Place) -> None:
    """$VISUAL is a shell command, and precedes $EDITOR. A link stays one. Even if nothing changes, all is encrypted."""
    script = place.script('echo shown; printf "%s|" "$1" "$2" > ../words; sed -i s/correct/wrong/ "$3"', "an editor")
    place.put("shared/all.yml", sealed("old").replace(b"\n", b"\r\n"))
    (place.tree / "link.yml").symlink_to("shared/all.yml")
    done = edit(place, "false", *place.by_file("old"), "link.yml", VISUAL=f"X=1 '{script}' --wait 'two words'")
    check_answer("it has the standard streams", done, output="shown\n")
    place.script('echo vi >> "$1"', "tools/vi")
    silent("the default", place.run(EDIT, *place.by_file("old"), "link.yml"))
    assert (place.path / "words").read_text() == "--wait|two words|"
    assert os.readlink(place.tree / "link.yml") == "shared/all.yml", "the link stays"
    after = place.get("shared/all.yml")
    assert decrypted("old", after) == CHANGED + b"vi\n", "both editors' texts are in its file"
    assert after[25:27] == b"\r\n", "its lines end as before"
    place.put("vars.yml", block("old") + b"b: !vault x\n")
    done = edit(place, "true", *place.by_file("old"), "vars.yml")
    check_answer("it", done, errors=f"{EDIT}: vars.yml: encrypted b (label default)\n")
    assert texts(place.get("vars.yml"), "old") == [TEXT, b"x"]
    silent("a new name", edit(place, 'sed -i s/^secret/other/ "$1"', *place.by_file("old"), "vars.yml"))
    assert place.get("vars.yml").startswith(block("old", name="other")), "its envelope stays"


# Commands of a shell that run an editor.
COMMANDS = [
    "{}",
    "X=1 {}",
    "true; {}",
    "true\n{}",
    "true && {}",
    "false || {}",
    "true & {}",
    "true | {}",
    "{} < /dev/null",
]
COMMANDS += ["{} > ../log", "{} 2> ../log", "$(echo {})", "`echo {}`", "if true; then true; fi; {}", "{}  -x", "'{}'"]
COMMANDS += ['f() {{ {} "$@"; }}; f', "(exit 0); {}", "exec {}", "command {}", "eval {}", "env {}"]


@pytest.mark.parametrize("command", COMMANDS)
def test_commands(place: Place, command: str) -> None:
    """Whatever a shell runs is an editor. The path of the file is its last argument."""
    place.put("all.yml", sealed("old"))
    script = place.script('for file do :; done; sed -i s/correct/wrong/ "$file"', "editor")
    silent("the edit", place.run(EDIT, *place.by_file("old"), "all.yml", EDITOR=command.format(script)))
    assert decrypted("old", place.get("all.yml")) == CHANGED, "what was saved"


@pytest.mark.parametrize("name", [name for name in AWKWARD if not name.startswith("-")])
def test_command_that_reads_the_path_again(place: Place, name: str) -> None:
    """Whoever named the file runs nothing with an editor that begins with `eval`."""
    place.put(name, sealed("old"))
    script = place.script(CHANGE, "editor")
    silent("the edit", place.run(EDIT, *place.by_file("old"), name, EDITOR=f"eval {script}"))
    assert decrypted("old", place.get(name)) == CHANGED, "what was saved"
    assert (place.names(), place.left()) == ([name], []), "nothing else was done"


def test_empty_text(place: Place) -> None:
    """An editor may save nothing at all, and then the vault and the value have an empty text."""
    place.put("all.yml", sealed("old", label="prod"))
    silent("a vault", edit(place, ': > "$1"', *place.by_file("old"), "all.yml"))
    assert described(place.get("all.yml")) == (b"$ANSIBLE_VAULT;1.2;AES256;prod", ("old", b"")), "it is emptied"


@pytest.mark.parametrize("before", (sealed("old"), block("old"), None), ids=("a vault", "a value", "a new vault"))
def test_saved_vault(place: Place, before: bytes | None) -> None:
    """A vault in place of the plaintext is refused, and kept, whatever the file is."""
    if before is not None:
        place.put("all.yml", before)
    place.put("../saved", sealed("dev"))
    done = edit(place, 'cp ../saved "$1"', *place.by_file("old"), "all.yml")
    ended("the edit", done, 1, "all.yml: what you gave is a vault, which ansible-vault does not encrypt again; ")
    assert place.files() == ({} if before is None else {"all.yml": before}), "the file stays"
    assert place.kept() == [sealed("dev")], "what was saved is kept"


def test_empty_file(place: Place) -> None:
    """A file that is there and empty is not a new vault."""
    place.put("all.yml", b"")
    done = edit(place, "touch ../started", *place.by_file("old"), "--allow-empty", "all.yml")
    ended("the edit", done, 1, "all.yml: it is not a vault, and no value in it has the tag `!vault`; ")
    assert not (place.path / "started").exists(), "no editor is started"
    assert place.files() == {"all.yml": b""}, "the file stays"


def test_several_files(place: Place) -> None:
    """One that cannot be edited keeps no other from being edited. The status is that of a failure, whichever it is."""
    place.put("all.yml", sealed("old"))
    for words in (["closed.yml", "all.yml"], ["all.yml", "closed.yml"]):
        place.put("closed.yml", sealed("dev"))
        done = edit(place, 'echo more >> "$1"', *place.by_file("old"), *words)
        why = f"{EDIT}: closed.yml: no secret decrypts this vault"
        assert (done.returncode, done.stdout) == (1, ""), "one is refused"
        assert done.stderr.startswith(why) and done.stderr.count("\n") == 1, "the reason"
    assert decrypted("old", place.get("all.yml")) == TEXT + b"more\n" * 2, "the other one is edited each time"


CUT_SHORT = "only a part of the text after `!vault` would be encrypted; put it in quotes"
# What is refused if it is typed, and why. `random_yaml.py` has what is encrypted.
MISREAD = {
    "b: !vault\n": "line 1: b is missing after `!vault`",
    "b: !vault |-\nc: not below it\n": "line 1: b is missing after `!vault`",
    "b: !vault [a]\n": "line 1: b is a list, a mapping or a key, not a string",
    "b: 'x\n": "line 2: it cannot be read as YAML: found unexpected end of stream",
    "b: !vault |-\n  x\ny\n": "line 4: it cannot be read as YAML: could not find expected ':'",
    "b: !vault x\n# c: !vault y\n": "line 2: this is new and looks like `!vault`, but is no tag of a value",
    "!vault b: x\n": "line 1: this value is a list, a mapping or a key, not a string",
    "b: !vault &c x\n": f"line 1: {CUT_SHORT}",
    "b: !vault x #y\n": f"line 1: {CUT_SHORT}",
    "b: !vault x\n  y # z\n": f"line 1: {CUT_SHORT}",
    "b: !vault x\n              # y\n": "its values cannot be written where they are; write each as `NAME: !vault |`",
    "b: !vault # x\n  y\n": f"line 1: {CUT_SHORT}",
    "\ufeff%TAG ! !x\n---\nb: !vault x\n": "line 1: `%TAG` may make `!vault` another tag",
    "b: !vault $ANSIBLE_VAULT_TOKEN x\n": "line 1: b begins like a vault ($ANSIBLE_VAULT), but is not one",
}


def type_into(place: Place, content: bytes, text: str) -> Done:
    """Edit a file with this content, so that it becomes the text."""
    place.put("vars.yml", content)
    place.put("../typed", text.encode())
    return edit(place, 'cp ../typed "$1"', *place.by_file("old"), "new.yml", "vars.yml")


@pytest.mark.parametrize("text", MISREAD)
def test_refused_forms(place: Place, text: str) -> None:
    """The file stays, and what was typed is kept."""
    done = type_into(place, before := block("old", b"x", name="b"), text)
    ended("the edit", done, 1, f"vars.yml: {MISREAD[text]}", f"; what you saved is encrypted in {place.copies()[0]}\n")
    assert place.kept() == [text.encode()], "what was typed is kept"
    assert place.get("vars.yml") == before, "the file stays"


# What is typed, with blanks at the end of a text or in lines below it, and what is encrypted.
BLANKS = {
    "b: !vault |-\n  x \n": b"x ",
    "b: !vault |\n  x\t\nc: 1\n": b"x\t\n",
    "b: !vault |-\n  x \n            \nc: 1\n": b"x \n          ",
    'b: !vault "x"\n            \nc: 1\n': b"x",
    "b: !vault x  \n            \n\n": b"x",
    "l:\n  - !vault >-\n    x \n              \n": b"x \n          ",
    "b: !vault |-\r\n  x \r\n            \r\nc: 1\r\n": b"x \n          ",
}


@pytest.mark.parametrize("text", BLANKS)
@pytest.mark.parametrize("old", [b"x", b"x "])
def test_blanks(place: Place, text: str, old: bytes) -> None:
    """An envelope has no blanks behind it, nor in lines below it: Ansible would take them for a part of it."""
    done = type_into(place, block("old", old, name="b"), text)
    assert done.returncode == 0, done
    written = place.get("vars.yml")
    assert re.search(rb"(?m)^[ ]+[0-9a-f]*[ \t]+\r?$", written) is None, "no digits with blanks behind them"
    lines = re.findall(rb"(?m)^ {10,}([$0-9a-f].*)\r?$|^ {10,}([$0-9a-f].*)\Z", written.replace(b"\r", b""))
    assert decrypted("old", b"\n".join(first or last for first, last in lines) + b"\n") == BLANKS[text]


# Lines that a file may have beside a value.
OWN_LINES = [
    "# Values have the tag !vault\n",
    "# old: !vault |-\n#   geheim\n",
    "# Attention: !important\n",
    "motd: |\n  Warning: !danger\n",
]


@pytest.mark.parametrize("lines", OWN_LINES)
def test_own_lines(place: Place, lines: str) -> None:
    """Lines that were there are the user's own, whatever they contain. `values_after_the_tag.py` has more of them."""
    place.put("vars.yml", before := block("old") + lines.encode() + b"port: 1\n")
    done = edit(place, "sed -i 's/port: 1/port: 2/' \"$1\"", *place.by_file("old"), "vars.yml")
    silent("the edit", done)
    assert place.get("vars.yml") == before.replace(b"port: 1", b"port: 2")


def test_lost_tags(place: Place) -> None:
    """A value that loses its tag is named, also if it gets another key. The others are not. `values_after_the_tag.py`
    has more of them."""
    blocks = [block("old", text, name=name) for text, name in ((b"one", "a"), (b"two", "b"), (b"x", "c"), (b"y", "d"))]
    place.put("vars.yml", b"".join(blocks) + b"e: one\n")
    change = r"s/^a: !vault/a:/; s/^b: !vault/B:/; s/^c: .*/c: '{{ other }}'/; /^  x/d; /^d:/,$ d"
    done = edit(place, f'sed -i "{change}" "$1"; echo \'e: one\' >> "$1"', *place.by_file("old"), "vars.yml")
    names = "".join(f"{EDIT}: vars.yml: {name} is now plaintext\n" for name in ("a", "the old text of b", "c"))
    check_answer("the edit", done, errors=names)


CLOSED = {b"\xff": "it is not UTF-8", b"$ANSIBLE_VAULT;1.1;AES256\n": "its plaintext is itself a vault"}
CLOSED[b" \n$ANSIBLE_VAULT;1.1;AES256"] = "its plaintext is itself a vault"


@pytest.mark.parametrize("text", CLOSED)
def test_closed(place: Place, text: bytes) -> None:
    """A text that YAML cannot show stays encrypted, and a message says so."""
    closed, typed = block("old", text, name="a"), "# why\n\nb: !vault |- # note\n\n  B\n"
    done = type_into(place, closed + block("old", b"b", name="b"), closed.decode() + typed)
    ended(
        "a change", done, 0, f"vars.yml: line 2: a stays encrypted: {CLOSED[text]}\n", "encrypted b (label default)\n"
    )
    after = place.get("vars.yml")
    assert after.startswith(closed + b"# why\n\nb: !vault | # note\n          $ANSIBLE_VAULT"), "without an empty line"
    assert texts(after, "old") == [text, b"\nB"]


# Values that stay encrypted, and why.
DAMAGED = "it is damaged"
CLOSED_VALUES = {
    "another password": (block("dev", name="a"), "no secret decrypts this vault"),
    "a value that is cut": (block("old", name="a")[:-30] + b"\n", DAMAGED),
    "a changed digit": (block("old", name="a")[:-2] + b"z\n", DAMAGED),
    "an empty body": (b"a: !vault |\n  $ANSIBLE_VAULT;1.1;AES256\n", DAMAGED),
    "a malformed header": (b"a: !vault |\n  $ANSIBLE_VAULT;1.1\n  6162\n", DAMAGED),
    "another version": (b"a: !vault |\n  $ANSIBLE_VAULT;9.9;AES256\n  6162\n", DAMAGED),
    "in quotes": (b'a: !vault "$ANSIBLE_VAULT;1.1;AES256\\n6162\\n"\n', DAMAGED),
}


@pytest.mark.parametrize("closed, why", CLOSED_VALUES.values(), ids=CLOSED_VALUES)
def test_closed_values(place: Place, closed: bytes, why: str) -> None:
    """A value that nothing opens keeps every byte, and others can be changed, added and moved around it."""
    typed = "b: !vault |-\n  B\n" + closed.decode() + "c: !vault |-\n  C\n"
    done = type_into(place, closed + block("old", b"b", name="b"), typed)
    ended("the edit", done, 0, f"vars.yml: line {2 if b'|' in closed else 1}: a stays encrypted: {why}")
    before, own, after = place.get("vars.yml").partition(closed)
    assert own == closed, "the value stays as it is"
    assert [texts(part, "old") for part in (before, after)] == [[b"B"], [b"C"]], "the others are encrypted"
    assert place.copies() == [], "nothing is kept elsewhere"


def test_other_tag(place: Place) -> None:
    """What Ansible reads as the same tag is one for an edit, too."""
    place.put("vars.yml", block("old").replace(b"!vault", b"!vault-encrypted"))
    done = edit(place, f"{CHANGE}; echo 'b: !vault-encrypted x' >> \"$1\"", *place.by_file("old"), "vars.yml")
    names = "".join(f"{EDIT}: vars.yml: encrypted {name} (label default)\n" for name in ("secret", "b"))
    check_answer("the edit", done, errors=names)
    assert texts(place.get("vars.yml"), "old") == [CHANGED, b"x"], "both values are encrypted"


def test_each_closed_value(place: Place) -> None:
    """Each is named, in a line of its own on standard error."""
    place.put("vars.yml", b"".join(block(password, name=password) for password in ("dev", "old", "prod")))
    done = edit(place, "true", *place.by_file("old"), "vars.yml")
    why = "stays encrypted: no secret decrypts this vault (label default; tried "
    *lines, last = done.stderr.splitlines()
    assert (done.returncode, done.stdout) == (0, ""), "nothing is on standard output"
    assert [line.partition(why)[0] for line in lines] == [
        f"{EDIT}: vars.yml: line {line}: {name} " for line, name in ((2, "dev"), (2 + 2 * len(BLOCK_LINES), "prod"))
    ], "the values that stay encrypted"
    assert last.startswith(f"{EDIT}: vars.yml: {UNCHANGED}"), "nothing was changed"


BLOCK_LINES = block("old").splitlines()


def test_pasted_envelopes(place: Place) -> None:
    """A whole envelope that is typed stays, whatever its password. One that is damaged is refused."""
    before, pasted = block("old"), block("dev", label="dev", name="pasted")
    place.put("vars.yml", before)
    place.put("../pasted", pasted)
    paste = 'cat ../pasted >> "$1"'
    silent("a whole one", edit(place, paste, *place.by_file("old"), "vars.yml"))
    assert place.get("vars.yml") == before + pasted, "it stays"
    place.put("vars.yml", before)
    place.put("../pasted", pasted[:-30] + b"\n")
    done = edit(place, paste, *place.by_file("old"), "vars.yml")
    ended("a damaged one", done, 1, "pasted begins like a vault ($ANSIBLE_VAULT), but is not one")
    assert place.get("vars.yml") == before, "the file stays"

"""The --output of ansible-vault-with, and files in which plaintext is written."""


import pytest

from companion_cases import TEXT, WITH, Companions, Place, decrypted, ended, run_changed, sealed, silent, to_new

# Command lines that ask for a password by a script, and then for a text or for nothing.
ASKING = ["encrypt -", "encrypt_string x", "encrypt_string --prompt", "encrypt_string x y", "decrypt a.yml"]
ASKING += ["rekey --new-vault-password-file ../secrets/new a.yml"]
# What cannot be written, and why.
UNWRITABLE = {
    "nowhere/x": "there is no directory ",
    ".": "Is a directory",
    "f" * 256: "File name too long",
    "a.yml/x": "",
    "closed/x": "Permission denied",
    "closed.yml": "Permission denied",
}


@pytest.mark.parametrize("name", UNWRITABLE, ids=range(len(UNWRITABLE)))
def test_unwritable(place: Place, name: str) -> None:
    """It is refused by its name before anything is asked."""
    place.put("a.yml", sealed("old"))
    place.put("closed.yml", b"x\n", 0o444)
    (place.tree / "closed").mkdir(mode=0o555)
    place.path.chmod(0o777)
    script = place.script("touch ../asked; echo the password old", "ask")
    for line in ASKING:
        done = place.as_nobody(WITH, *line.split(), "--vault-password-file", script, "--output", name)
        assert done.returncode in (1, 3) and f"{WITH}: {name}: {UNWRITABLE[name]}" in done.stderr, done
        assert not (place.path / "asked").exists(), line


def test_open_files(place: Place) -> None:
    """An open file, such as standard output, is written as it is."""
    place.put("a.yml", sealed("old"))
    words = f"{WITH} rekey {' '.join(to_new(place))} --output"
    for line in ("/dev/stdout a.yml", "/dev/stdout a.yml > ../out && cat ../out", "/dev/fd/3 a.yml 3>&1 | cat"):
        done = place.shell(f"{words} {line}")
        assert decrypted("new", done.stdout.encode()) == TEXT, done
    assert place.get("a.yml") == sealed("old")


# How each command leaves the mode of the file to which it writes: only the owner may read what is decrypted.
MODES = {"encrypt": "0o644", "decrypt": "0o600", "rekey": "0o644"}
# The ends of command lines, and the file that each replaces.
WRITTEN = {
    "--output out.yml a.yml": "out.yml",
    "--output out.yml - < a.yml": "out.yml",
    "--output a.yml a.yml": "a.yml",
}
WRITTEN |= {"--output link.yml a.yml": "out.yml"}
# The settings beside options.
BESIDE = {"no settings": b"", "another password": b"[defaults]\nvault_password_file = ../secrets/prod\n"}


@pytest.mark.parametrize("settings", BESIDE.values(), ids=BESIDE)
@pytest.mark.parametrize("command", MODES)
def test_modes(cases: Companions, command: str, settings: bytes) -> None:
    """The mode of what --output replaces depends on the command alone, however the vault is read."""
    for line, name in WRITTEN.items():
        place = cases.place()
        place.put("a.yml", TEXT if command == "encrypt" else sealed("old"))
        place.put("out.yml", b"before\n")
        (place.tree / "link.yml").symlink_to("out.yml")
        if settings:
            place.put("ansible.cfg", settings)
        secrets = to_new(place) if command == "rekey" else place.by_file("old")
        silent(line, place.shell(f"{WITH} {command} {' '.join(secrets)} {line}"))
        password = {"encrypt": "old", "rekey": "new"}.get(command)
        written = decrypted(password, place.get(name)) if password else place.get(name)
        assert written == TEXT, f"{line}: what is written"
        assert place.mode(name) == MODES[command], f"{line}: the mode of the output"


# Puts a file of the same content in the place of one, once that was read.
SWAP = """
make = replacing.tempfile.mkstemp

def swap_and_make(*words):
    os.rename("a.yml", "../old.yml")
    with open("../old.yml", "rb") as old, open("a.yml", "wb") as new:
        new.write(old.read())
    os.chmod("a.yml", 0o666)
    return make(*words)

replacing.tempfile.mkstemp = swap_and_make
"""


def test_swapped_files(cases: Companions) -> None:
    """What takes the place of a file, even with the same content, does not tell who may read the new one."""
    for command in ("rekey", "decrypt"):
        place = cases.place()
        place.put("a.yml", vault := sealed("old"), 0o600)
        words = to_new(place) if command == "rekey" else place.by_file("old")
        done = run_changed(place, WITH, SWAP, [command, *words, "a.yml"])
        ended(command, done, 1, "a.yml: another program changed it in the meantime")
        assert place.files() == {"a.yml": vault}

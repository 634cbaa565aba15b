"""ansible-vault-check in a repository: marked files, and labels for which the user has no secret."""

import pytest

from companion_cases import CHECK, HOOK, ROTATE, TEXT, Place, block, check_answer, ended, sealed
from companion_cases.repository import under_git
from lib.needs import needs_root

pytestmark = pytest.mark.usefixtures("git")

ATTRIBUTES = "*.vault.yml diff=ansible-vault\nsecrets/** ansible-vault\n"
NO_MATCH = (
    "(label default; tried none: no password has its label; --require-id-match or vault_id_match forbids the others)"
)
MERGE = b"<<<<<<< HEAD\na: 1\n=======\na: 2\n>>>>>>> branch\n"


def test_marked_files(place: Place) -> None:
    """A marked file has to be a vault. Only its own repository marks a file, and a link by its own name, too."""
    place.shell("git init -q one && git init -q two")
    for name in ("one/a.yml", "one/b.vault.yml", "one/secrets/deep/vars.yml", "two/a.vault.yml", "outside.vault.yml"):
        place.put(name, TEXT)
    place.put("one/.gitattributes", ATTRIBUTES.encode())
    place.put("one/secrets/ok", sealed("old", MERGE))
    place.put("one/in_lfs.vault.yml", b"version https://git-lfs.github.com/spec/v1\noid sha256:61\nsize 5\n")
    place.put("one/d.yml", MERGE + block("old"))
    (place.tree / "one/link.vault.yml").symlink_to("a.yml")
    done = place.run(CHECK, *place.by_file("old"), "one", "two", "outside.vault.yml")
    wanted = [f"one/{name}: is not encrypted" for name in ("b.vault.yml", "link.vault.yml", "secrets/deep/vars.yml")]
    wanted.append("one/in_lfs.vault.yml: it is a pointer of git-lfs, which says nothing about the file")
    wanted += [f"one/{what} has git's conflict markers" for what in ("d.yml:", "secrets/ok: default: its plaintext")]
    assert sorted(line.partition(";")[0] for line in done.stderr.splitlines()) == sorted(
        f"{CHECK}: {each}" for each in wanted
    )
    ended("the check", done, 1, "2 decrypted, 6 failed\n")
    (place.tree / "link.yml").symlink_to("one/b.vault.yml")
    ended("a link to one", place.run(CHECK, *place.by_file("old"), "link.yml"), 1, "link.yml: is not encrypted\n")


# Files that are marked, and whether they pass. All that is read at first of some of them is blank.
BLANK = b"\n" * (1 << 20)
CONTENTS = {
    "nothing": (b"", True),
    "an empty line": (b"\n", True),
    "blanks": (b" \t\r\n\f\v\n", True),
    "many blanks": (2 * BLANK, True),
    "many blanks before a text": (BLANK + b"x\n", False),
    "many blanks behind a text": (b"x\n" + BLANK, False),
    "blanks before a vault": (b"\n" + sealed("old"), False),
}


@pytest.mark.parametrize("content, passes", CONTENTS.values(), ids=CONTENTS)
def test_empty_marked_files(place: Place, content: bytes, passes: bool) -> None:
    """A marked file that is empty, or blank, is to be filled."""
    under_git(place, ATTRIBUTES)
    place.put("a.vault.yml", content)
    done = place.run(CHECK, "--list", "a.vault.yml")
    ended("the check", done, 0 if passes else 1, "0 failed\n" if passes else "1 failed\n")


def test_plaintext_with_the_tag(place: Place) -> None:
    """In a marked file with encrypted values, what has their tag is one, too."""
    under_git(place, ATTRIBUTES)
    place.put("a.vault.yml", block("old") + b"b: !vault plain\n")
    for words in (["--list"], place.by_file("old")):
        ended(
            "it",
            place.run(CHECK, *words, "a.vault.yml"),
            1,
            "a.vault.yml: has plaintext with the tag `!vault` in line ",
        )


def test_second_names(place: Place) -> None:
    """A pointer of git-lfs, and a link out of the repository, fail if any of their names is marked."""
    place.shell("git init -q project")
    place.put("project/a.bin", b"version https://git-lfs.github.com/spec/v1\noid sha256:61\nsize 5\n")
    place.put("outside.yml", TEXT)
    for name, target in {"b.vault.yml": "a.bin", "out.yml": "../outside.yml", "p.vault.yml": "../outside.yml"}.items():
        (place.tree / "project" / name).symlink_to(target)
    check = [CHECK, "--list", "project"]
    ended(
        "none is marked", place.run(*check), 0, "project/a.bin: it is a pointer", "project/out.yml: a link leads out of"
    )
    place.put("project/.gitattributes", ATTRIBUTES.encode())
    ended("both are marked", place.run(*check), 1, "0 listed, 2 failed\n")


def test_broken_repository(place: Place) -> None:
    """If git fails, so does the check, with git's own message."""
    under_git(place, ATTRIBUTES)
    place.put("a.vault.yml", sealed("old"))
    place.put(".git/config", b"[no config\n")
    done = place.run(CHECK, *place.by_file("old"), ".")
    ended("git fails", done, 1, f"{CHECK}: git check-attr failed: ", "bad config line 1 in file ")


# What is at the path of a .gitattributes, and why the check is refused. git overlooks most of them.
UNREADABLE = {
    "a pipe": ("mkfifo {}", "it is not a regular file"),
    "a link": ("echo '* ansible-vault' > marks; ln -s {top}/marks {}", "it is not a regular file"),
    "a link to a pipe": ("mkfifo pipe; ln -s {top}/pipe {}", "it is not a regular file"),
    "a loop": ("ln -s .gitattributes {}", "it is not a regular file"),
    "a directory": ("mkdir {}", "Is a directory"),
    "a long file": ("truncate -s 200M {}", "it has more than 100,671,488 bytes, more than any vault"),
    "a device": ("mknod {} c 1 5", "it is not a regular file"),
    "a closed file": ("echo '* ansible-vault' > {0}; chmod 0 {0}", "Permission denied"),
}


@pytest.mark.parametrize("folder", ("", "deep/", "deep/er/"))
@pytest.mark.parametrize("line, why", UNREADABLE.values(), ids=UNREADABLE)
def test_unreadable_attributes(place: Place, line: str, why: str, folder: str) -> None:
    """What may mark a file is read, or refused by name, if it is at the file or above it."""
    if "mknod" in line:
        needs_root()
    place.shell("git init -q")
    place.put("deep/er/a.yml", sealed("old"))
    place.put("other/a.yml", sealed("old"))
    path = f"{folder}.gitattributes"
    place.shell(line.format(path, top=place.tree))
    environment = {"GIT_CONFIG_COUNT": "1", "GIT_CONFIG_KEY_0": "safe.directory", "GIT_CONFIG_VALUE_0": "*"}
    place.environment |= environment
    done = place.as_nobody(CHECK, *place.by_file("old"), "deep")
    check_answer("attributes that are not read", done, 1, None, f"{CHECK}: {place.tree}/{path}: {why}\n")
    done = place.as_nobody(CHECK, *place.by_file("old"), "other")
    assert done.returncode == (1 if folder == "" else 0), done


NO_ACCESS = "unable to access"
# What makes git overlook a mark, with no more than a warning.
OVERLOOKED = {
    "an unreadable file": ("chmod 0 {}", NO_ACCESS),
    "a link to itself": ('rm {0}; ln -s "$(basename {0})" {0}', NO_ACCESS),
    "a pattern that git ignores": ("echo '!b.yml ansible-vault' >> {}", "Negative patterns are ignored"),
    "an attribute that git ignores": ("echo 'b.yml =x' >> {}", "is not a valid attribute name"),
    "a long line": ("printf 'b.yml %03000d ansible-vault\\n' 1 >> {}", "line"),
}


@pytest.mark.parametrize("name", [".gitattributes", ".git/info/attributes"])
@pytest.mark.parametrize("what", OVERLOOKED)
def test_overlooked_marks(place: Place, what: str, name: str) -> None:
    """What git overlooks with a warning, check and hook pass on, and go on: other marks count. A .gitattributes that
    cannot be read, the check refuses before."""
    change, warning = OVERLOOKED[what]
    if name == ".gitattributes" and warning == NO_ACCESS:
        return
    under_git(place, "")
    place.put("a.vault.yml", sealed("old"))
    place.put(name, ATTRIBUTES.encode())
    place.put("plain.vault.yml", TEXT)
    place.shell(f"git add a.vault.yml; chmod -R a+w .; {change.format(name)}")
    place.environment |= {"GIT_CONFIG_COUNT": "1", "GIT_CONFIG_KEY_0": "safe.directory", "GIT_CONFIG_VALUE_0": "*"}
    done = place.as_nobody(CHECK, *place.by_file("old"), "a.vault.yml")
    ended("the check of a vault", done, 0, f"{CHECK}: git check-attr: ", warning)
    if warning != NO_ACCESS:
        done = place.as_nobody(CHECK, *place.by_file("old"), ".")
        ended("the check of a plaintext", done, 1, "plain.vault.yml: is not encrypted", "1 failed")
    if name != ".gitattributes":
        ended("the hook", place.as_nobody(HOOK), 0, f"{HOOK}: git check-attr: ", warning)


def test_variables_of_git(place: Place) -> None:
    """A variable that names another repository or index hides no mark, and a trace is no warning."""
    place.shell("git init -q one && git init -q two && cd two && git commit -q --allow-empty -m 1")
    place.put("one/.gitattributes", ATTRIBUTES.encode())
    place.put("one/b.vault.yml", TEXT)
    place.shell("cd one && git add .")
    variables = [*place.run("git", "rev-parse", "--local-env-vars").stdout.split(), "GIT_TRACE", "GIT_ATTR_SOURCE"]
    for name in variables:
        for value in (str(place.tree / "two/.git"), str(place.tree / "two"), "1", "nowhere"):
            if "CONFIG" not in name:
                done = place.run(CHECK, *place.by_file("old"), "one", **{name: value})
                ended(name, done, 1, "one/b.vault.yml: is not encrypted", "0 decrypted, 1 failed")
    done = place.run(HOOK, folder="one", GIT_TRACE="1", GIT_TRACE_SETUP="2")
    ended("the hook", done, 1, "b.vault.yml is not encrypted")


def test_some_labels(place: Place) -> None:
    """For users who have only some of the secrets, envelopes with other labels are counted, but are not failures."""
    place.put("a.yml", sealed("dev", block("old"), "dev"))
    place.put("b.yml", sealed("prod", label="prod"))
    place.put("c.yml", block("dev", label="dev") + block("old") + block("old", label="prod", name="x"))
    dev = [CHECK, *place.by_id("dev", "dev"), "--label"]
    done = place.run(*dev, "dev", ".")
    ended("one label", done, 0, "\n2 decrypted, 0 failed, 4 with other labels (default 2, prod 2)\n")
    done = place.run(CHECK, *place.by_id("dev", "old"), "c.yml", ANSIBLE_VAULT_ID_MATCH="False")
    ended("labels must match", done, 1, NO_MATCH, "0 decrypted, 3 failed")
    done = place.run(*dev, "prdo", "a.yml")
    ended("a label that nothing has", done, 1, f"{CHECK}: no vault or value has the label prdo\n")
    place.put("d.yml", b"$ANSIBLE_VAULT;1.1\n")
    done = place.run(*dev, "dev", ".")
    ended(
        "one without a header",
        done,
        1,
        "./d.yml: no label: it is damaged: vault header line is malformed; ",
        "2 decrypted, 1 failed",
    )


# Envelopes in a document that are no more than examples.
EXAMPLES = {
    "one that no password decrypts": block("dev", label="prod"),
    "a damaged one": b"$ANSIBLE_VAULT;1.2;AES256;prod\n%s\n[...]\n" % (b"61" * 40),
    "a damaged value": b"pw: !vault |\n  $ANSIBLE_VAULT;1.2;AES256;prod\n  6162\n",
    "one whose first line is damaged": b"pw: !vault |\n  $ANSIBLE_VAULT;prod\n  6162\n",
}


@pytest.mark.parametrize("example", EXAMPLES.values(), ids=EXAMPLES)
def test_labels_of_examples(place: Place, example: bytes) -> None:
    """Nothing has a label that only an example in a document has. What is decrypted there has it."""
    place.put("a.md", b"An example:\n\n" + example)
    place.put("b.yml", sealed("old"))
    check = [CHECK, *place.by_file("old"), "--label", "prod", "."]
    rotate = [ROTATE, *place.by_file("old"), *place.by_id("prod", "new", "new-"), "."]
    for words in (check, rotate):
        ended(words[0], place.run(*words), 1, f"{words[0]}: no vault or value has the label prod")
    place.put("a.md", b"An example:\n\n" + example + b"\nAnother one:\n\n" + block("old", label="prod"))
    for words in (check, rotate):
        check_answer(words[0], place.run(*words), output=None)


SUFFIXES = (".md", ".rst", ".adoc", ".html")


@pytest.mark.parametrize("suffix", SUFFIXES)
def test_values_in_marked_documents(place: Place, suffix: str) -> None:
    """A document that is marked is encrypted if its values are."""
    under_git(place, f"marked{suffix} ansible-vault\n")
    place.put(f"marked{suffix}", block("old"))
    check_answer("the check", place.run(CHECK, *place.by_file("old"), "."), output=None)


@pytest.mark.parametrize("suffix", SUFFIXES)
@pytest.mark.parametrize("example", EXAMPLES.values(), ids=EXAMPLES)
def test_examples_in_marked_documents(place: Place, example: bytes, suffix: str) -> None:
    """What is an example in any other document is a failure in one that is marked."""
    under_git(place, f"marked{suffix} ansible-vault\n")
    content = b"about: |\n  An example\n" + block("old") + example
    for name in ("marked", "other"):
        place.put(f"{name}{suffix}", content)
    done = place.run(CHECK, *place.by_file("old"), ".")
    ended("the check", done, 1, "2 decrypted, 1 failed\n")
    failed = [line for line in done.stderr.splitlines() if line.startswith(f"{CHECK}: ")]
    assert [f"./marked{suffix}:" in line for line in failed] == [True], "only the marked one fails"

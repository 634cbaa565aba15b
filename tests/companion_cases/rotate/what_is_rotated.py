"""ansible-vault-rotate: which envelopes get which secret, also within a plaintext, what is reported, and what stays."""

import os
import re
from collections import Counter
from itertools import product
from operator import attrgetter

import pytest

from companion_cases import CHECK, NOBODY, PASSWORDS, ROTATE, TEXT, Place, block, decrypted, ended, sealed, summary
from companion_cases import check_answer, texts, to_new
from lib.needs import needs_root
from model.vaults import seal

CHANGED_MEANWHILE = "another program changed it in the meantime"
# A plaintext with blocks, the last of which is under another secret than its label says.
INNER = (
    block("prod", label="prod", name="a")
    + b"middle: 2\n"
    + block("dev", label="dev", name="b")
    + block("old", label="prod", name="stray")
)


def place_within(name: str) -> str:
    """Return how a message names the place of a block."""
    line = INNER.splitlines().index(f"{name}: !vault |".encode()) + 2
    return f"in its plaintext, line {line}: "


# Why the last block fails.
STRAY = f"{place_within('stray')}no secret decrypts this vault (label prod; "
STRAY_CHECKED = f"{place_within('stray')}prod: no secret decrypts this vault (label prod; "


def by_label(place: Place) -> list[str]:
    return [*place.by_id("prod", "prod"), *place.by_id("dev", "dev")]


def test_check_within_a_vault(place: Place) -> None:
    """The check finds the blocks within a vault, and says which secret decrypts each."""
    place.put("all.yml", sealed("prod", INNER, "prod"))
    done = place.run(CHECK, *by_label(place), "all.yml")
    for wanted in (
        f"decrypted by prod@{place.secret('prod')}\n",
        f"{place_within('a')}prod: decrypted by prod@{place.secret('prod')}\n",
        f"{place_within('b')}dev: decrypted by dev@{place.secret('dev')}\n",
        STRAY_CHECKED,
    ):
        ended("the check", done, 1, f"all.yml: prod: {wanted}")
    ended("its summary", done, 1, "\n3 decrypted, 1 failed\n")


def test_by_label(place: Place) -> None:
    """All that has the label of the new secret gets this secret, even if it is within a vault that has the secret
    already, or within a vault with another label."""
    place.put("all.yml", sealed("prod", INNER, "prod"))
    place.put("done.yml", sealed("prod2", INNER, "prod"))
    place.put("other.yml", sealed("dev", INNER, "dev"))
    rotate = [ROTATE, *by_label(place), *place.by_id("prod", "prod2", "new-")]
    done = place.run(*rotate, ".")
    ended("what is rotated", done, 1, "./all.yml: 2 rotated\n", "./done.yml: rotated\n")
    ended("what is not", done, 1, f"./all.yml: {STRAY}", f"./done.yml: {STRAY}", f"./other.yml: {STRAY}")
    ended("its summary", done, 1, summary(4, 1, 4, " (dev 4)", 3))
    for name, password in {"all.yml": "prod2", "done.yml": "prod2", "other.yml": "dev"}.items():
        check_rotated(name, decrypted(password, place.get(name)))
    for name in ("all.yml", "done.yml"):
        assert place.get(name).startswith(b"$ANSIBLE_VAULT;1.2;AES256;prod\n"), f"{name}: its label stays"
    before = place.files()
    again = place.run(*rotate, *place.by_id("prod", "prod2"), ".")
    ended("again", again, 1, summary(0, 5, 4, " (dev 4)", 3))
    assert place.files() == before, "once more, all stays"


def check_rotated(name: str, after: bytes | None) -> None:
    """Check what a rotation left of the plaintext with blocks."""
    assert after is not None, f"{name}: its password"
    assert mask_digits(after) == mask_digits(INNER), f"{name}: all around the digits stays"
    # Each block by its number, and the password that it has then.
    for number, password in enumerate(["prod2", "dev", "old"]):
        assert texts(after, password)[number] == TEXT, f"{name}: the block {number} under {password}"


def mask_digits(text: bytes) -> bytes:
    return re.sub(rb"(?m)^ +[0-9a-f]{20,}$", b"digits", text)


def test_what_cannot_be_rotated(place: Place) -> None:
    """A file that cannot be read may be a vault under an old secret."""
    before = {"all.yml": sealed("old", block("old")), "twice.yml": sealed("old", sealed("old"))}
    before |= {"closed.yml": sealed("old"), "folder/a.yml": sealed("old")}
    for name, content in before.items():
        place.put(name, content)
    for name in (*before, ".") if os.geteuid() == 0 else ():
        os.chown(place.tree / name, NOBODY, NOBODY)
    (place.tree / "closed.yml").chmod(0)
    (place.tree / "folder").chmod(0)
    (place.tree / "link.yml").symlink_to("all.yml/below")
    # The block within it is encrypted. Encrypting the vault itself fails.
    place.wrap_tool('[ "$1" != encrypt ] || mkdir "$TMPDIR/one" 2> /dev/null || kill -9 $$')
    done = place.as_nobody(ROTATE, *to_new(place), ".")
    (place.tree / "folder").chmod(0o755)
    whys = ["all.yml: signal 9 ended ansible-vault; run this again", "twice.yml: its plaintext is itself a vault"]
    whys += ["closed.yml: Permission denied", "folder: Permission denied", "link.yml: Not a directory"]
    ended("they are not sealed", done, 1, *(f"./{why}" for why in whys), summary(0, failed=5))
    assert place.files() == before, "they stay"


@pytest.mark.parametrize("change", ["rm -f t/a.yml", "rm -rf t"])
def test_vanished_while_rotated(place: Place, change: str) -> None:
    """It may be elsewhere now, under the old password, so it is a failure, and it does not come back."""
    place.put("t/a.yml", sealed("old"))
    place.wrap_tool(f'[ "$1" != encrypt ] || {change}')
    ended(
        "it is gone",
        place.run(ROTATE, *to_new(place), "."),
        1,
        f"./t/a.yml: {CHANGED_MEANWHILE}\n",
        summary(0, failed=1),
    )
    assert place.files() == {}


def test_owners_and_modes(place: Place) -> None:
    modes = {"a.yml": 0o600, "b.yml": 0o664, "c.yml": 0o444, "d.yml": 0o2755}
    for (name, mode), owner in zip(modes.items(), product((NOBODY, 0), repeat=2)):
        place.put(name, sealed("old"))
        if os.geteuid() == 0:
            os.chown(place.tree / name, *owner)
        os.chmod(place.tree / name, mode)
    about = attrgetter("st_mode", "st_uid", "st_gid")
    before = [about(os.stat(place.tree / name)) for name in modes]
    ended("all", place.run(ROTATE, *to_new(place), "."), 0, summary(4))
    assert [about(os.stat(place.tree / name)) for name in modes] == before, "modes and owners stay"


def test_owners_that_cannot_be_kept(place: Place) -> None:
    needs_root()
    place.put("a.yml", sealed("old"))
    place.tree.chmod(0o777)
    why = "a.yml: its owner 0:0 cannot be kept: Operation not permitted; run this as that user, or as root\n"
    ended("it is refused", place.as_nobody(ROTATE, *to_new(place), "a.yml"), 1, why, summary(0, failed=1))
    os.chown(place.tree / "a.yml", NOBODY, 0)
    why = "a.yml: its group 0 cannot be kept: Operation not permitted; run this as a member of it, or as root\n"
    ended("its group", place.as_nobody(ROTATE, *to_new(place), "a.yml"), 1, why, summary(0, failed=1))
    assert place.files() == {"a.yml": sealed("old")}, "it stays, and nothing is left"


# Those of documents.
SUFFIXES = (".md", ".rst", ".adoc", ".html")


def test_documents(place: Place) -> None:
    """In a document, an envelope that no password opens, or that is damaged, is an example, and stays. Any other is
    rotated. A link is a document only if its file is."""
    rotated = {"README.md": b"An example:\n\n" + block("old"), "a.RST": block("new") + block("old", name="b")}
    rotated |= {"b.adoc": b"# x\n" + block("old"), "link.md": block("old"), "vault.md": sealed("old")}
    # As YAML, this is a key, and a text whose lines are joined.
    indented = b"".join(b"    " + line for line in sealed("old").splitlines(keepends=True))
    rotated |= {f"indented{suffix}": b"# Router\n\nIts password:\n\n" + indented for suffix in SUFFIXES}
    rotated |= {f"first{suffix}": lead + indented for suffix, lead in zip(SUFFIXES, (b"", b"\n", b"  \n\n", b"\r\n"))}
    stay = {"c.md": block("dev"), "d.md": block("prod", label="prod")}
    stay["f.html"] = b"<pre>\n$ANSIBLE_VAULT;1.1;AES256\n%s\n[...]\n" % (b"61" * 40)
    place.put("vars.yml", rotated.pop("link.md"))
    for name, content in (rotated | stay).items():
        place.put(name, content)
    (place.tree / "link.md").symlink_to("vars.yml")
    done = place.run(CHECK, *place.by_file("old"), *place.by_file("new"), ".")
    check_answer("the check", done, output=None)
    done = place.run(ROTATE, *to_new(place), ".")
    check_answer("the rotation", done, output=None)
    assert done.stdout.splitlines()[-1] == summary(13, 1, 1, " (prod 1)"), "what is counted"
    assert {name: place.get(name) for name in stay} == stay, "examples stay"
    place.put("vars.yml", block("dev"))
    place.put("vault.md", sealed("dev"))
    for words in ([ROTATE, *to_new(place)], [CHECK, *place.by_file("old")]):
        ended("no document", place.run(*words, "link.md", "vault.md"), 1, "link.md:2: ", "vault.md: ")


# The program fails in these ways, which say nothing of the vault.
FAILURES = {"kill -9 $$": "signal 9 ended ansible-vault; run this again", "echo ERROR! why >&2; exit 4": "why"}


@pytest.mark.parametrize("failure, why", FAILURES.items())
def test_failures_in_documents(place: Place, failure: str, why: str) -> None:
    """An envelope in a document is no example because the program fails."""
    place.put("a.md", b"An example:\n\n" + block("old"))
    place.wrap_tool(f'[ "$1" != view ] || {{ {failure}; }}')
    for words in ([ROTATE, *to_new(place)], [CHECK, *place.by_file("old")]):
        ended(words[0], place.run(*words, "a.md"), 1, f"{words[0]}: a.md:4: ", f"{why}\n", "1 failed")


def test_dry_run(place: Place) -> None:
    """It says what the rotation does then, in the same order, and that alone is status 1."""
    place.put("a.yml", block("old"))
    place.put("b.yml", block("old") + block("new", name="b") + block("old", name="c"))
    place.put("c.yml", sealed("new", block("old") + block("old", name="b")))
    place.put("e.yml", sealed("dev", label="dev"))
    (place.tree / "link.yml").symlink_to("a.yml")
    before = place.files()
    words = [ROTATE, *to_new(place), "link.yml", "."]
    dry = place.run(*words, "--dry-run")
    assert place.files() == before, "nothing is written"
    done = place.run(*words)
    lines = [f"link.yml ({place.tree}/a.yml): rotated", "./b.yml: 2 rotated", "./c.yml: 2 rotated"]
    assert done.stdout.splitlines() == [*lines, summary(5, 2, 1, " (dev 1)")], "the rotation"
    said = dry.stdout.replace("would be rotated", "rotated").replace(" to be rotated", " rotated")
    assert (said, dry.stderr, dry.returncode) == (done.stdout, done.stderr, 1)
    ended("nothing is left to do", place.run(*words, "--dry-run"), 0, "0 to be rotated, 7 already under")
    place.put("a.yml", block("old"))
    ended("something is", place.run(*words, "--dry-run"), 1, "1 to be rotated, 6 already under", " 0 failed\n")


def test_what_would_be_read_otherwise(place: Place) -> None:
    """YAML reads no longer key than 1,024 characters, so a new envelope, whose salt is longer, does not fit here."""
    vault = seal(PASSWORDS["old"], b"x" * 180, salt=b"s").replace(b"\n", b"\\n")
    place.put("vars.yml", before := b'{!vault "%s": 1}\n' % vault)
    why = "vars.yml: its values cannot be written where they are; write each as `NAME: !vault |`, and indent "
    ended("the rotation", place.run(ROTATE, *to_new(place), "vars.yml"), 1, why, summary(0, failed=1))
    assert place.get("vars.yml") == before, "it stays"


def test_copies(place: Place) -> None:
    """A password is tried once on an envelope, even a wrong one, and it is encrypted once, however often it is there.
    Equal texts in different envelopes get different ones, so that nobody can see that they are equal. A label that
    nothing has makes the status 1."""
    place.put("a.yml", sealed("old", block("old", b"one")))
    place.put("b.yml", place.get("a.yml"))
    place.put("c.yml", block("old", b"one") + block("old", b"one", name="b"))
    place.put("d.yml", sealed("old"))
    place.put("e.yml", sealed("old", label="default"))
    # A run that only checks a secret has no input.
    place.wrap_tool('cat > "$0.$$"; [ -s "$0.$$" ] && echo "$1" >> ../runs; exec < "$0.$$"; rm "$0.$$"')
    wrong = place.by_file("dev")
    done = place.run(ROTATE, *wrong, *to_new(place), *place.by_id("prd", "prod2", "new-"), ".")
    ended("rotate", done, 1, summary(8, failed=1), f"{ROTATE}: no vault or value has the label prd\n")
    assert Counter((place.path / "runs").read_text().split()) == {"view": 2 * 4, "encrypt": 4}
    assert place.get("a.yml") == place.get("b.yml"), "a copy stays a copy"
    assert place.get("d.yml").split()[1:] != place.get("e.yml").split()[1:], "equal texts"

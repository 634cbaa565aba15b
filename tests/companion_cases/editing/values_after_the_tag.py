"""What is typed behind `!vault` is encrypted, or the edit is refused, whatever YAML is around it. So is what is typed
behind a tag that somebody may take for it. Lines that were there are the user's own. Envelopes contain the digits of
their plaintexts."""

from __future__ import annotations

import random
from collections import Counter
from typing import NamedTuple

import hypothesis
import pytest
from hypothesis import strategies as st

from ansible_vault_companions.refusals import Refused
from companion_cases.editing.random_yaml import Hexadecimal, Plaintexts, envelope, make_draft
from lib.subtests import SubTests

EXAMPLES = 3000
NO_VALUE, CUT_SHORT = "this is new and looks like `!vault`", "only a part of the text after `!vault` would be encrypted"
# The words of what is typed.
SECRETS = ["hunter2", "staple"]
TEXTS = ["hunter2", "hunter2 staple", "hunter2, staple", "hunter2 #staple", "hunter2: staple", "hunter2]staple"]
TEXTS += ["#hunter2", "!hunter2", "*hunter2", "[hunter2, staple]", "{hunter2: staple}", "hunter2\n    staple"]
TEXTS += ["'hunter2'", '"hunter2"', "|\n    hunter2\n    staple", ">-\n    hunter2", "|\n    hunter2\n    # staple"]
LINES = ["new: !vault {}", "new: !vault {}", "new: &b !vault {}", "new: !vault &b {}", "new: {{x: !vault {}, y: 1}}"]
LINES += ["- !vault {}", "!vault {}", "[!vault {}]", "? !vault {}", "new: !vault\n    {}", "new: !<!vault> {}"]
LINES += ["# new: !vault {}", "new: 'so !vault {}'", "new: x # !vault {}", "!vault {}: x", "new: !vault # {}\n    x"]
LINES += ["new: !vault-encrypted {}", "new: !!vault {}", "new: !vault:{}"]
# Texts that begin like an anchor.
TEXTS += ["&hunter2", "&hunter2 staple", "& hunter2", "&a hunter2"]
# Lines that somebody may put above and below what is typed, and that can be read without it.
AROUND = [
    ('notes{}: "', '  "'),
    ("notes{}: '", "  '"),
    ("notes{}: |", "  x"),
    ("notes{}: >2", "  x"),
    ("l{}: [", "  ]"),
]
AROUND += [
    ("m{}: {{", "  }}"),
    ("# {}", ""),
    ("l{}:", "- x"),
    ("m{}:", "  y: 1"),
    ("notes{}: x", "  y"),
    ("---", "# {}"),
]
AROUND += [
    ("...", "--- # {}"),
    ("? [x, {}]", ": y"),
    ("# new: !vault hunter2", ""),
    ("# !vault hunter2", "t{}: !valt x"),
]
AROUND += [("%TAG ! !{}", "---"), ("z{}: &a !vault x", "z: *a"), ("m{}: !vault 'x'", "")]
# What a file may have with a tag, and the word that may change there.
OLD_TEXT = "changeme"
TAGGED = [f"t{{}}: {{}} {OLD_TEXT}", f"t{{}}: {{}} |\n  {OLD_TEXT}", f"t{{}}: {{}}\n  - x\n  - {OLD_TEXT}"]
TAGGED += [
    f"# t{{}}: {{}} |\n#   {OLD_TEXT}",
    f"n{{}}: |\n  - {{}} # x\n    {OLD_TEXT}",
    f"t{{}}: {{}}\n  a: {OLD_TEXT}",
    f"t{{}}: {{}} [{{{{a: {OLD_TEXT}}}}}]",
    f"t{{}}: &b {{}}\n  {OLD_TEXT}",
]


class Edit(NamedTuple):
    """The lines of a file, those that are saved above one of its plaintext, and what takes the place of OLD_TEXT. The
    tag of these lines is right or misspelled."""

    content: list[str]
    place: int
    added: list[str]
    new_text: str


# A line that the file has in plaintext is a new one if it is saved twice.
COPIED_LINE = Edit(["first: !vault |", "  20", "# new: !vault hunter2"], 0, ["# new: !vault hunter2"], OLD_TEXT)
# A text without quotes takes up the lines that are typed below it, as far as one that begins a comment.
TAKEN_UP = Edit(["first: !vault changeme"], 1, ["  - !vault |", "    hunter2", "    # staple"], OLD_TEXT)
# The line "!vault |" is in a text that is encrypted, which makes it no line of the user's in plaintext.
FROM_A_TEXT = Edit(
    ["first: !vault |", "  $ANSIBLE_VAULT;1.1;AES256", f"  {b'!vault |'.hex()}"],
    0,
    ['notes: "', "!vault |", "  hunter2", '  "'],
    OLD_TEXT,
)


@st.composite
def tags(draw: st.DrawFn) -> str:
    """Return the tag, or one that somebody may take for it."""
    place, letter = draw(st.integers(0, 5)), draw(st.sampled_from("vaultVAULT_-1"))
    before, after = "vault"[:place], "vault"[place:]
    misspelled = [f"!{before}{letter}{after}", f"!{before}{letter}{after[1:]}", f"!{before}{after[1:]}"]
    return draw(st.sampled_from(["!vault"] * 6 + ["! vault", "!!vault", "!Vault", "!VAULT", *misspelled]))


@st.composite
def edits(draw: st.DrawFn) -> Edit:
    generator = Plaintexts(random.Random(draw(st.integers(0, 1 << 32))))
    content = ["first: !vault |", *(f"  {line}" for line in generator.lines())]
    for number in range(draw(st.integers(1, 3))):
        if draw(st.booleans()):
            above, below = draw(st.sampled_from(AROUND))
            content += [above.format(number), below.format(number)]
        elif draw(st.booleans()):
            content += draw(st.sampled_from(TAGGED)).format(number, "!vault").splitlines()
        else:
            content += [f"deep{number}:", *generator.collection(2, 2).splitlines()]
    above, below = draw(st.sampled_from([("", "")] * len(AROUND) + AROUND))
    margin = draw(st.sampled_from(["", "", "  "]))
    tag = draw(tags())
    line = draw(st.sampled_from(["", *LINES])).replace("!vault", tag)
    typed = margin + line.format(draw(st.sampled_from(TEXTS)))
    new_text = draw(st.sampled_from([OLD_TEXT, "other"]))
    return Edit(content, draw(st.integers(0, 40)), [above.format("new"), typed, below.format("new")], new_text)


def save(edit: Edit) -> bytes:
    """Return the file after an edit."""
    content = "".join(f"{line}\n" for line in edit.content).encode(errors="surrogateescape")
    file = make_draft(content)
    lines = file.plaintext.replace(OLD_TEXT.encode(), edit.new_text.encode()).splitlines(keepends=True)
    place = edit.place % (len(lines) + 1)
    lines[place:place] = [f"{line}\n".encode() for line in edit.added if line.strip()]
    return file.encrypt(Hexadecimal(), b"".join(lines)).content


def test_typed_values(request: pytest.FixtureRequest) -> None:
    counts: Counter[str] = Counter()

    @hypothesis.seed(request.config.getoption("--seed"))
    @hypothesis.settings(
        max_examples=EXAMPLES, deadline=None, database=None, suppress_health_check=list(hypothesis.HealthCheck)
    )
    @hypothesis.given(edits())
    @hypothesis.example(COPIED_LINE)
    @hypothesis.example(TAKEN_UP)
    @hypothesis.example(FROM_A_TEXT)
    def check(edit: Edit) -> None:
        try:
            after = save(edit)
        except Refused as fault:
            counts[str(fault).partition(": ")[2].partition(";")[0].partition(",")[0]] += 1
            return
        counts["encrypted"] += 1
        before = "\n".join(edit.content).encode(errors="surrogateescape")
        assert [word for word in SECRETS if after.count(word.encode()) > before.count(word.encode())] == []

    check()
    assert min(counts["encrypted"], counts[NO_VALUE], counts[CUT_SHORT]) > 20, counts


@pytest.mark.parametrize(
    "text", ["|\n  Behind !vault is\n  hunter2\n", "'behind !vault is hunter2'\n", '"!vault hunter2"\n']
)
def test_mentions(text: str) -> None:
    """A text in a block or in quotes may have the tag in it."""
    file = make_draft(VALUE)
    saved = file.encrypt(Hexadecimal(), file.plaintext + b"new: !vault " + text.encode())
    assert (b"hunter2" in saved.content, len(saved.notes)) == (False, 1)


# What somebody may type for the tag, and lines with it.
SLIPS = ["!Vault", "!VAULT", "! vault", "!  vault", "!!vault", "!vault:", "!<vault>", "!valut", "!vualt", "!vautl"]
SLIPS += ["!avult", "!vaul", "!valt", "!vult", "!vaut", "!ault", "!vaullt", "!vauult", "!vvault", "!vaultt", "!vaults"]
SLIPS += ["1!vault", "_!vault", "\xa0!vault", "!\xa0vault"]
SLIPS += ["!vsult", "!vauly", "!bault", "!vaulthunter2", "!vault|", "! Valut", "!vau-lt", "!vault_", "!Vault-encrypted"]
TYPED_WITH = ["n: {} x", "n:{} x", "n {} x", "# n: {} x", "n: '{} x'", "n: [{} x]", "n: x # {}", "{}: x", "n: ({})"]
VALUE = b"first: !vault |\n          " + envelope(b"x").strip().replace(b"\n", b"\n          ") + b"\n"


@pytest.mark.parametrize("line", TYPED_WITH)
def test_slips(subtests: SubTests, line: str) -> None:
    """A mistyped tag in a new line is refused, unless what is typed is no YAML anyway."""
    file = make_draft(VALUE)
    for slip in SLIPS:
        with subtests.test(slip), pytest.raises(Refused, match=f"^line 3: {NO_VALUE}|it cannot be read as YAML"):
            file.encrypt(Hexadecimal(), file.plaintext + line.format(slip).encode() + b"\n")


@pytest.mark.parametrize("slip", SLIPS)
def test_slips_of_old_values(slip: str) -> None:
    """So is one in the line of a value that was there."""
    file = make_draft(VALUE)
    with pytest.raises(Refused, match=f"^line 1: {NO_VALUE}|it cannot be read as YAML|is missing after"):
        file.encrypt(Hexadecimal(), file.plaintext.replace(b"!vault", slip.encode()))


# Lines in which the tag is mistyped, but which may be meant. The last ones have what a keyboard may have for a `!`.
NAMED = ["n: !v x", "n: !secret x", "n: !.vault x", "n: !/vault x", "n: !'vault' x", "n: !vlt x", "n: !<v> x", "n: ! x"]
NAMED += ["n: !\n  vault x", "n: vault x", "n: vault! x", "n: vault |-\n  x", "n: v!ault x", "n: vaults x", "n: !v [x]"]
NAMED += ["n: !=vault x", "n: 1vault x", "n: \uff01vault x", "n: \xa1vault x"]
# Lines that nobody takes for a value with the tag.
NOT_NAMED = ["n: vault", "n: 'vault x'", "n: Vault | x", "n: !!str x", "n: !unsafe x", "n: Open the vault!"]
NOT_NAMED += ["n: |\n  vault x", "n: default vault", "n: fault x", "n: vaulted x", "# vault x"]


@pytest.mark.parametrize("line", NAMED + NOT_NAMED)
def test_named(line: str) -> None:
    """A value that may have been meant to have the tag is saved and named. A later edit says nothing of it."""
    file, typed = make_draft(VALUE), line.encode() + b"\n"
    notes = ["n has no tag `!vault`, so it is plaintext"] if line in NAMED else []
    assert file.encrypt(Hexadecimal(), file.plaintext + typed) == (VALUE + typed, notes)
    file = make_draft(VALUE + typed)
    assert file.encrypt(Hexadecimal(), b"k: 1\n" + file.plaintext).notes == []


OF_LOST = b"""\
app:
  host: db1
  password: !vault |-
            $ANSIBLE_VAULT;1.1;AES256
            636f72726563740a686f727365
  user: kim
old:
  password: plain
"""
SHOWN = "  password: !vault |-\n    correct\n    horse\n"
AT_KEY, ELSEWHERE = "app.password is now plaintext", "the old text of app.password is now plaintext"
# What takes the place of what is shown, and what is said.
LOST = {
    "no tag": ("!vault ", "", AT_KEY),
    "no tag, and another text": (SHOWN, "  password: staple\n", AT_KEY),
    "in quotes": (SHOWN, '  password: "correct\\nhorse"\n', AT_KEY),
    "at another key": (SHOWN, "  passwort: |\n    correct\n    horse\n", ELSEWHERE),
    "no line with the tag": ("  password: !vault |-\n", "", ELSEWHERE),
    "in a comment": (SHOWN, "  # password: vault |-\n  #   correct\n  #   horse\n", ELSEWHERE),
    "within a text": (SHOWN, "  note: so correct horse!\n", ELSEWHERE),
    "beside the new text": (SHOWN, "  # correct horse\n  password: !vault new\n", ELSEWHERE),
    "removed": (SHOWN, "", ""),
    "a part of it": (SHOWN, "  # correct\n  note: correct horses\n", ""),
    "an alias": (SHOWN, "  password: *x\n", ""),
    "another key": ("  password: !", "  passwort: !", ""),
    "another parent": ("app:\n", "web:\n", ""),
    "the parent of another": (f"app:\n  host: db1\n{SHOWN}  user: kim\nold:", "app:", ""),
}


@pytest.mark.parametrize("ending", [b"\n", b"\r\n"], ids=repr)
@pytest.mark.parametrize("before, after, note", LOST.values(), ids=LOST)
def test_lost_tags(before: str, after: str, note: str, ending: bytes) -> None:
    """A text that was encrypted and is in plaintext now is named, wherever it is."""
    file = make_draft(OF_LOST.replace(b"\n", ending))
    old, new = (text.encode().replace(b"\n", ending) for text in (before, after))
    saved = file.encrypt(Hexadecimal(), file.plaintext.replace(old, new))
    assert [each for each in saved.notes if "encrypted" not in each] == ([note] if note else [])


def test_lost_document() -> None:
    """A value without a key is named, too."""
    file = make_draft(VALUE.replace(b"first", b"---").replace(b":", b"", 1))
    assert file.encrypt(Hexadecimal(), b"--- !vault y\n").notes == ["encrypted the document (label default)"]
    assert file.encrypt(Hexadecimal(), b"--- y\n").notes == ["the document is now plaintext"]


# What looks less like the tag, and may be typed.
NO_SLIPS = [
    'shell: "[ ! -f x ]"',
    "# why: !important",
    "b: wow! Vault",
    "c: x != vault",
    "d: [!danger x]",
    "e: !unsafe x",
]
NO_SLIPS += [
    "f: if (!valid) {",
    "g: '!value'",
    "h: !Sub x",
    "# !var, !vars, !vlan, !default",
    "i: '[ ! -e vault.yml ]'",
]
# Lines that a file may have beside a value: comments and strings that mention the tag, or something that looks like it.
OWN_LINES = [
    "# Values have the tag !vault\n",
    "# old: !vault |-\n#   geheim\n",
    "# Attention: !important\n",
    "motd: |\n  Warning: !danger\n  b: !vault x\n",
    "c: 'so !valut it'\nd: !Vault x\n",
    'notes: "\n\npassword: !vault |-\n  changeme\n\n"\n',
]


@pytest.mark.parametrize("lines", OWN_LINES)
def test_own_lines(lines: str) -> None:
    """Lines that were there may stay and move, whatever they contain, and others may change and be added."""
    content = VALUE + lines.encode() + b"port: 1\n"
    file = make_draft(content)
    shown = file.plaintext
    added = "".join(f"{line}\n" for line in NO_SLIPS).encode()
    assert file.encrypt(Hexadecimal(), shown.replace(b": 1", b": 2")).content == content.replace(b": 1", b": 2")
    assert file.encrypt(Hexadecimal(), shown + added).content == content + added, "new lines"
    moved = VALUE + b"port: 1\n" + lines.encode()
    assert file.encrypt(Hexadecimal(), make_draft(moved).plaintext).content == moved, "lines in another order"
    deeper = b"".join(b"  " + line if line.strip() else line for line in shown.splitlines(keepends=True))
    after = file.encrypt(Hexadecimal(), b"app:\n" + deeper).content
    assert after.endswith(deeper[deeper.index(b"\n", deeper.index(b"x\n")) + 1 :]), "lines with another margin"
    saved = file.encrypt(Hexadecimal(), shown.replace(b"  x", b"  S3cret", 1) + b"new: !vault S3cret\n")
    assert (b"S3cret" in saved.content, len(saved.notes)) == (False, 2), "a value that is changed, and a new one"
    assert lines.encode() in saved.content

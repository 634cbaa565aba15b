"""The grammar of envelopes: whatever the spelling, an envelope is found where PyYAML finds it, and another one takes
its place. What cannot be read or replaced is named, and what only looks like one is none."""

from __future__ import annotations

import json
import re
from collections import Counter
from collections.abc import Iterable, Iterator
from itertools import product
from random import Random
from typing import NamedTuple

import pytest

from ansible_vault_companions.envelopes import header
from ansible_vault_companions.envelopes.header import LINE_END
from ansible_vault_companions.envelopes.key_paths import KeyPath
from ansible_vault_companions.envelopes.layout import apply_replacements, put_plaintext
from ansible_vault_companions.envelopes.node import TAGS, Node
from ansible_vault_companions.envelopes.parsed_text import ParsedText, parse_envelopes, parse_nodes
from ansible_vault_companions.refusals import Refused
from companion_cases import BODY, CHECK, ROTATE, Place, block, ended, lines_of, sealed, summary, to_new
from lib.needs import needs_pyyaml

needs_pyyaml()
import yaml

LINE = sealed("old").decode().replace("\n", "\\n")
COMMENT = b"".join(b"# " + line for line in block("old").splitlines(keepends=True))
DIGITS = "".join(sealed("old").decode().splitlines()[1:])
MAGIC = "$ANSIBLE_VAULT"


class Form(NamedTuple):
    """The content of a file, and the reason why it is not rotated, which is empty if it is."""

    content: bytes
    why: str = ""


FORMS = {
    "a comment": Form(COMMENT),
    "tabs": Form(b"a: !vault |\n" + BODY.replace(b"          ", b"\t")),
    "a template": Form(b"{% if x %}\na: !vault |\n" + BODY + b"\n{% endif %}\n"),
    "a script": Form(b"cat <<END\n" + sealed("old") + b"END\n"),
    "a folded scalar": Form(b"a: !vault >\n" + BODY + b"\n", why="its lines are joined, since it is not a block"),
    "single quotes": Form(b"a: !vault '%s'\n" % sealed("old").replace(b"\n", b"\n  "), why="its lines are joined"),
    "a byte order mark": Form(b"\xef\xbb\xbf" + sealed("old"), why="let the file begin with it"),
    "empty lines": Form(b" \r\n\t\n" + sealed("old"), why="an envelope within other text"),
    "spaces": Form(b"  " + sealed("old").replace(b"\n", b"\n  "), why="let the file begin with it"),
    "a tagged text": Form(b"a: !vault |\n          # x\n" + BODY + b"\n", why="an envelope within other text"),
    "a text": Form(f"PASSWORD=x:{LINE}\n\tx".encode(), why="an envelope within other text"),
    "a damaged block": Form(
        b"a: !vault |\n  $ANSIBLE_VAULT;1.1;AES256\n  not digits\n", why="vault body is not hexadecimal"
    ),
    "a damaged header": Form(b"$ANSIBLE_VAULT;1.1\n61\n", why=" line is malformed"),
    "not ASCII.yml": Form(
        "$ANSIBLE_VAULT;1.1;AES256\n# größe\n".encode() + block("old"), why="vault body is not hexadecimal"
    ),
    "a null character.yml": Form(block("old") + b"\0", why="it cannot be read as YAML: it has a null character"),
    "a vault": Form(sealed("old")),
    "a label that says nothing": Form(
        b"a: !vault |2+   # why\n" + lines_of(sealed("old", label="default"), 2),
    ),
    "digits as keys": Form(block("old") + b"deadbeef: 1\nabcd\n"),
    "bytes of any kind": Form(b"\xef\xbb\xbf# \xff\x85\xe2\x80\xa8\t\r\n" + block("old") + b"# \x0c \xfe"),
    "a comment like a value": Form(b"# $ANSIBLE_VAULT;1.1;AES256\n" + block("old") + b"#  6162\n"),
    "within a text": Form(b"script: |\n  x: !vault |\n" + lines_of(sealed("old"), 6) + b"\n  y: 1\n"),
}
# Unusual headers, which are read like any other.
for first_line in (f"{MAGIC} ;1.2;AES256;default", f"{MAGIC}_x; 1.1 ;AES256", f"{MAGIC};1.1;\tAES256;default"):
    for vault in (sealed("old"), block("old")):
        FORMS[f"{len(FORMS)} {first_line}"] = Form(vault.replace(b"$ANSIBLE_VAULT;1.1;AES256", first_line.encode()))
# Each form with other line ends.
WITH_CR_LF = {f"CR LF, {name}": Form(form.content.replace(b"\n", b"\r\n"), form.why) for name, form in FORMS.items()}
FORMS |= WITH_CR_LF
# What is rotated, and what is left with a reason.
ROTATED = {name for name, form in FORMS.items() if not form.why}
LEFT = FORMS.keys() - ROTATED


# Text that only mentions a header is no envelope, and not reported.
JOB = """\
# A vault begins with $ANSIBLE_VAULT;1.1;AES256, and a: !vault "$ANSIBLE_VAULT..." is in quotes.
script:
  - echo "$ANSIBLE_VAULT_PASSWORD\\n" > "$ANSIBLE_VAULT_FILE"; ls
  - $ANSIBLE_VAULT view a.yml
  - grep -q '^ *\\$ANSIBLE_VAULT;' "$1" && echo "\\$ANSIBLE_VAULT;1.1;AES256 begins a vault"
  - {run: "$ANSIBLE_VAULT;1.1;AES256", tag: "!vault"}
  - |
    # Below `!vault |` is $ANSIBLE_VAULT;1.1;AES256 or "$ANSIBLE_VAULT;1.2;AES256;prod".
    $ANSIBLE_VAULT;1.2;AES256;prod
    is a header
"""


def put_forms(place: Place) -> dict[str, bytes]:
    """Write a file of each form, and two that only mention headers. Return all of them."""
    place.put("job.yml", JOB.encode())
    place.put("job.json", json.dumps(JOB).encode())
    for name, form in FORMS.items():
        place.put(name, form.content)
    return place.files()


def check_reasons(errors: str, names: Iterable[str]) -> None:
    """Check that what is left is named with its reason, and nothing else."""
    messages = {name: "".join(line for line in errors.splitlines() if f"./{name}:" in line) for name in names}
    assert {name for name, message in messages.items() if message} == LEFT, errors
    assert [name for name in LEFT if FORMS[name].why not in messages[name]] == [], messages


def test_check_of_forms(place: Place) -> None:
    before = put_forms(place)
    done = place.run(CHECK, *place.by_file("old"), ".")
    check_reasons(done.stderr, before)
    ended("the summary", done, 1, f"{len(ROTATED)} decrypted, {len(LEFT)} failed")
    assert place.files() == before, "all stays"


def test_dry_run_of_forms(place: Place) -> None:
    """It writes nothing, but has the status of a rotation."""
    before = put_forms(place)
    rotate = [ROTATE, *to_new(place), ".", "--dry-run"]
    done = place.run(*rotate)
    check_reasons(done.stderr, before)
    to_be = summary(len(ROTATED), failed=len(LEFT)).replace("rotated", "to be rotated", 1)
    ended("the summary", done, 1, to_be)
    assert place.files() == before, "all stays"


def test_rotation_of_forms(place: Place) -> None:
    before = put_forms(place)
    rotate = [ROTATE, *to_new(place), "."]
    done = place.run(*rotate)
    check_reasons(done.stderr, before)
    ended("the summary", done, 1, summary(len(ROTATED), failed=len(LEFT)))
    assert {name for name, content in place.files().items() if content != before[name]} == ROTATED, "what is rotated"
    for name in ROTATED & WITH_CR_LF.keys():
        assert b"\n" not in place.get(name).replace(b"\r\n", b""), f"{name}: its line ends"
    for name in LEFT:
        (place.tree / name).unlink()
    to_be = summary(0, len(ROTATED)).replace("rotated", "to be rotated", 1)
    ended("nothing is left", place.run(*rotate, "--dry-run"), 0, to_be)


def test_yaml_that_cannot_be_read(place: Place) -> None:
    """By its name it is meant as YAML, so the check cannot say that all is well."""
    place.put("a.yml", b"x: [\n" + block("old") + b"y:\t1\n")
    place.put("b.json", b'{"x": 1,\n"y"}\n' + sealed("old"))
    place.put("d.j2", b"x: [\n" + block("old"))
    place.put("e.yml", b"x: [\n# !vault | $ANSIBLE_VAULT;1.1;AES256\n")
    done = place.run(CHECK, *place.by_file("old"), ".")
    places = ("a.yml: line 2", "b.json: line 3")
    wanted = "".join(f"{CHECK}: ./{where}: it cannot be read as YAML.*\n" for where in places)
    assert done.returncode == 1 and re.fullmatch(wanted, done.stderr), done.stderr


LOADERS = [getattr(yaml, "CSafeLoader", yaml.SafeLoader), yaml.SafeLoader]
TAGGED = ["!vault", "!vault", "!vault-encrypted", "!<!vault>", "!v%61ult", "&a !vault", "!vault &a"]
TAGGED += ["!vault # why\n{}   "]
KEYS = ["a", "b c", "'q: ''x'", '"\\u00e9\\t"', "größe", "&k c", "!!str 1", "? d\n{}", "? [e, f]\n{}", "<<"]
OTHERS = ["", "word", "'it''s'", "$ANSIBLE_VAULT_FILE", "|\n{}  text\n\n{}   more", "{{a: 'x', b: [1, 2]}}", "~"]
OTHERS += ["&x 1", "[&w {{}}, *w]", ">-\n{}  folded\n{}  lines", "!other 1", "'!vault'", "$ANSIBLE_VAULT;1.1;AES256"]
GAPS = ["", "", "", "\n", "\n\n", "# $ANSIBLE_VAULT\n", "\n    # !vault\n"]
FIRST = ["%TAG !e! !va\n---\n", "", "", "\ufeff", "# größe\n", "%YAML 1.1\n---\n", "--- # x\n"]
MEANT = re.compile(r"\$ANSIBLE_VAULT;.*\s[0-9a-f]{16}")
NEW = sealed("new", label="another")


class Composed(NamedTuple):
    path: KeyPath
    text: str
    is_tagged: bool


class Generator:
    """Generates nested mappings and lists of scalars, some of which are envelopes."""

    def __init__(self, random: Random) -> None:
        self.random, self.choice = random, random.choice

    def data(self) -> bytes:
        text = "# größe\n---\n".join(self.collection(3, 0) for _ in range(self.choice((1, 1, 1, 2))))
        end = self.choice(["\n", "\n", "\r\n", "\r"])
        first = self.choice(FIRST)
        # With a directive, a tag may have another name.
        text = text.replace("!vault ", "!e!ult ") if "!e!" in first else text
        text = (first + text).replace("\n", end).removesuffix(self.choice(("", end)))
        return text.encode(errors="surrogateescape")

    def collection(self, depth: int, column: int) -> str:
        names, margin = self.random.sample(KEYS, self.random.randint(1, 4)), " " * column
        is_list = self.random.random() < 0.3
        heads = ["-" if is_list else name.format(margin) + ":" for name in names]
        return "".join(f"{margin}{head}{self.node(depth - 1, column)}" for head in heads)

    def node(self, depth: int, column: int) -> str:
        """What follows a key or a dash, with the line end."""
        kind, margin = self.random.random(), " " * column
        if depth and kind < 0.3:
            head = self.choice(("", "", " &y", "  # why"))
            return f"{head}\n{self.collection(depth, column + self.random.randint(1, 4))}"
        if kind < 0.5:
            return f" {self.choice(OTHERS).format(*[margin] * 4)}\n{self.choice(GAPS)}"
        if kind < 0.6:
            return f" {self.flow()}\n{self.choice(GAPS)}"
        tag = self.choice([*TAGGED, ""]).format(margin)
        return f" {tag} {self.scalar(column)}{self.choice(GAPS)}"

    def lines(self) -> list[str]:
        return sealed("old", label=self.choice(("", "prod", "p q"))).decode().splitlines()

    def scalar(self, column: int) -> str:
        step, style = self.random.randint(1, 12), self.choice("||||>'\" ")
        margin = " " * (column + step)
        if style in "|>":
            number = str(step) if step < 10 else ""
            first_line = style + self.choice(("", "", "-", "+", number)) + self.choice(("", "", "  # why"))
            return f"{first_line}\n" + "".join(f"{margin}{line}\n" for line in self.lines())
        if style == '"':
            return self.quoted(margin) + "\n"
        return style.strip() + f"\n{margin}".join(self.lines()) + style.strip() + "\n"

    def quoted(self, margin: str = "") -> str:
        """In double quotes, with escapes and, if there is a margin, with lines that go on in the next one."""
        rate = self.choice((0, 0, 0.03, 0.3))
        ways = ["\\u{:04X}", "\\x{:02x}", "\\U{:08x}"] if margin else ["\\u{:04x}"]
        ends = ["", f"\\\n{margin}"] if margin else [""]
        text = "\n".join(self.lines()) + self.choice(("", "\n"))
        # The first word of a header is found as it is.
        spelled = [*MAGIC]
        for character in text[len(MAGIC) :]:
            is_escaped = character == "\n" or self.random.random() < rate
            spelled.append(self.choice(ways).format(ord(character)) if is_escaped else character)
        # A line that ends within the first word would hide an envelope that has no tag.
        for place in range(len(MAGIC), len(spelled), 80):
            spelled[place] += self.choice(ends)
        return '"%s"' % "".join(spelled)

    def flow(self) -> str:
        items = [f'{{"__ansible_vault": {self.quoted()}}}', f"!vault {self.quoted()}", self.quoted(), "1", "x: 2"]
        return self.choice(("[{}, {}, 3]", "{{a: [{}], c: !x [{}]}}")).format(*self.random.sample(items, 2))


def composed(data: bytes) -> list[Composed] | None:
    """The path and the text of each envelope, as PyYAML composes them; None if it is not YAML."""
    text = data.decode().removeprefix("\ufeff")
    try:
        nodes = [*yaml.compose_all(text, LOADERS[0])]  # type: ignore[no-untyped-call]
    except yaml.YAMLError:
        return None
    seen: set[int] = set()
    return [value for node in nodes for value in walked(node, (), seen)]


def walked(node: yaml.Node, path: KeyPath, seen: set[int]) -> Iterator[Composed]:
    if id(node) in seen:
        return
    seen.add(id(node))
    if isinstance(node, yaml.ScalarNode):
        is_tagged = node.tag in TAGS or path[-1:] == ("__ansible_vault",)
        if is_tagged or MEANT.match(node.value):
            yield Composed(path, node.value, is_tagged)
    elif isinstance(node, yaml.MappingNode):
        for key, item in node.value:
            # A key that is no scalar has no name.
            step = key.value if isinstance(key, yaml.ScalarNode) else ""
            yield from walked(item, (*path, step), seen)
    else:
        for number, item in enumerate(node.value):
            yield from walked(item, (*path, number), seen)


def around(data: bytes) -> list[bytes]:
    """What is before, between and behind the envelopes."""
    values = parse_envelopes(data).values
    places = [0, *(place for value in values for place in (value.envelope_start, value.end)), len(data)]
    return [data[begin:end] for begin, end in zip(places[::2], places[1::2])]


def text_at(path: KeyPath, text: str) -> tuple[KeyPath, str]:
    """Return where a text is, and the text without what a block adds around it."""
    return path, text.strip()


def list_composed(data: bytes) -> list[tuple[KeyPath, str]] | None:
    """Return where PyYAML finds envelopes, and their texts."""
    values = composed(data)
    return None if values is None else [text_at(value.path, value.text) for value in values]


def check_places(data: bytes, values: Iterable[Node]) -> None:
    """Check that each place is within the content, even if it is no YAML."""
    for value in values:
        assert 0 <= value.scalar_start <= value.envelope_start <= value.end <= len(data), (value, data)


def replace_some(random: Random, parsed: ParsedText) -> dict[Node, bytes]:
    """Choose the envelopes to replace."""
    return {value: NEW for value in parsed.values if random.random() < 0.5}


def check_replaced(data: bytes, parsed: ParsedText, new: dict[Node, bytes]) -> None:
    """Check that new envelopes are where the old ones were, and that all around them stays."""
    after = parsed.replace_envelopes(new)
    assert around(after) == around(data), (data, after)
    assert {*LINE_END.findall(after)} <= {*LINE_END.findall(data)}, (data, after)
    wanted = []
    for value in parsed.values:
        if not value.is_elsewhere:
            wanted.append(text_at(value.path, new.get(value, value.text).decode()))
    assert list_composed(after) == wanted, (data, after)


def test_random_yaml(monkeypatch: pytest.MonkeyPatch, pytestconfig: pytest.Config) -> None:
    counts: Counter[str] = Counter()
    for number in range(800):
        random = Random(f"{pytestconfig.getoption('--seed')} {number}")
        monkeypatch.setattr(yaml, "CSafeLoader", LOADERS[number % 2], raising=False)
        data = Generator(random).data()
        damaged = data[: random.randrange(999)] + random.randbytes(9) + data
        check_places(damaged, parse_envelopes(damaged).values if number % 3 else parse_nodes(damaged).nodes)
        wanted = list_composed(data)
        if wanted is None:
            continue
        parsed = parse_envelopes(data)
        values = [value for value in parsed.values if not value.is_elsewhere]
        assert [text_at(value.path, value.text.decode()) for value in values] == wanted, data
        new = replace_some(random, parsed)
        check_replaced(data, parsed, new)
        counts.update(values=len(wanted), replaced=len(new))
    assert min(counts["values"], counts["replaced"]) > 500, counts


# Pieces of texts: characters that stand for bytes while YAML is read, one beyond 16 bits, and what looks like escapes.
ESCAPED = ["\ue000", "\ue0b0", "\ue0ff", "\ue83d", "\U0001f600", "é", "\\", "\n", '"', "\\ud83d", "\\ue0b0"]
ESCAPED += ["d83d", " x"]


def test_escapes(monkeypatch: pytest.MonkeyPatch, pytestconfig: pytest.Config) -> None:
    """PyYAML says what an escape means. One of half a character means nothing."""
    random = Random(pytestconfig.getoption("--seed"))
    for number in range(300):
        monkeypatch.setattr(yaml, "CSafeLoader", LOADERS[number % 2], raising=False)
        text = "".join(random.choices(ESCAPED, k=random.randint(1, 6)))
        escaped = "".join(random.choice(("\\U{:08x}", "\\U{:08X}")).format(ord(c)) for c in text)
        in_yaml = f"- \"{escaped}\"\n- |1-\n  \\ud83d\n- \\ud83d\n- '\\ud83d'\n".encode()
        assert read_texts(in_yaml) == [item.encode() for item in yaml.safe_load(in_yaml)], in_yaml
    for data in (b'["\\ud83d"]', b'["\\ude00\\ud83d"]', b"""['', "\\ud83d"]""", b'a: "\\U0000dfff"'):
        for loader in LOADERS:
            monkeypatch.setattr(yaml, "CSafeLoader", loader, raising=False)
            assert parse_nodes(data).fault.startswith("line 1: it cannot be read as YAML: "), data


# YAML with a mistake in or near a word.
MISTAKES = ["x: *WORD", "x: !WORD!y z", "[&WORD a, &WORD b, *WORD", "%TAG WORD", "%YAML WORD", '"\\WORD"', '"\\xWORD"']
MISTAKES += [
    "[WORD",
    "{WORD: [",
    "a: b: WORD",
    "'WORD",
    "a:\n\tWORD: x",
    "a: |WORD",
    "&WORD &x y",
    "? WORD\n- x",
    "!<WORD",
]
MISTAKES += ["- WORD\nWORD: x", "%WORD\n%WORD", "@WORD", "a: `WORD", "a: %WORD", "--- WORD\n... WORD", "*WORD : *WORD"]


@pytest.mark.parametrize("loader", LOADERS)
def test_words_of_mistakes(monkeypatch: pytest.MonkeyPatch, loader: type) -> None:
    """What is wrong is said without the words of the file."""
    monkeypatch.setattr(yaml, "CSafeLoader", loader, raising=False)
    faults = [parse_nodes(mistake.replace("WORD", "hunter2").encode()).fault for mistake in MISTAKES]
    assert len([*filter(None, faults)]) > 15, "most are mistakes"
    assert [fault for fault in faults if "hunter" in fault] == []


def read_texts(data: bytes) -> list[bytes]:
    parsed = parse_nodes(data)
    assert not parsed.fault, (data, parsed.fault)
    return [node.text for node in parsed.nodes if node.path]


BLANKS = ["", "", " ", "\t", "  "]
# Texts for each field of a header.
FIELDS = [
    [MAGIC, MAGIC, f"{MAGIC}_2", f"{MAGIC} {MAGIC}", f"{MAGIC} x", MAGIC + "x" * 226, MAGIC + "x" * 225, f"{MAGIC}é"],
    [*["1.1", "1.2"] * 3, "1.0", "1.3", ""],
    [*["AES256"] * 4, "AES", "aes256"],
    ["", "prod", "p r", "x" * 128, "x" * 129, "\x7f", "é", "a\tb", "\x0b"],
    ["", "more"],
]


def test_valid_headers(place: Place, pytestconfig: pytest.Config) -> None:
    """The companions call a vault whole if the program reads it, unless further fields follow, and find its label."""
    counts: Counter[bool] = Counter()
    for number in range(300):
        random = Random(f"{pytestconfig.getoption('--seed')} {number}")
        fields = FIELDS[: random.randint(2, 5)]
        first_line = ";".join(random.choice(texts) + random.choice(BLANKS) for texts in fields)
        vault = first_line.encode() + b"\n" + DIGITS.encode()
        done = place.run_on(vault, "ansible-vault", "view", *place.by_file("old"))
        is_valid = done.returncode == 0
        assert header.is_whole_envelope(vault) == (is_valid and len(fields) < 5), (first_line, done.stderr)
        if is_valid:
            assert header.read_label(vault) == ([*first_line.split(";"), ""][3].strip() or "default"), first_line
        counts[is_valid] += 1
    assert min(counts[True], counts[False]) > 20, counts


# Each form of a tag, also those that only PyYAML without libyaml reads, and what is around it.
TAG_FORMS = ["!", "!a", "!!str", "!v%61ult", "!a;/?:@&=+$.~*'()_-b", "!<!vault>", "!<&a>", "!<a%3Eb,c>", "!<a]b[c>"]
TAG_FORMS += ["!<tag:yaml.org,2002:str>"]
PURE_FORMS = ["!a,b", "!a]b[c"]
AROUND = ["{}", "- - k: {}", "[x, {}\n, y]", "{{k: {}\n}}"]
STYLED = ["|\n   old\n   old\n", ">-\n   old\n", "old", "'old'", '"old\\ue0b0"', ""]


@pytest.mark.parametrize("loader", LOADERS, ids=["libyaml", "PyYAML"])
def test_tags(monkeypatch: pytest.MonkeyPatch, loader: type) -> None:
    """Whatever the tag and the anchor before a scalar, it begins behind them, and another text takes its place."""
    monkeypatch.setattr(yaml, "CSafeLoader", loader, raising=False)
    tags = TAG_FORMS + (PURE_FORMS if loader is yaml.SafeLoader else [])
    read: Counter[str] = Counter()
    for tag, gap, around, style in product(tags, [" ", "  # !x, &y\n   "], AROUND, STYLED):
        for words in ([tag], ["&a-1_", tag], [tag, "&a-1_"]):
            data = around.format(gap.join([*words, style])).encode()
            values = [value for value in parse_nodes(data).nodes if value.tag]
            if values:
                check_begin(data, values[0], words[-1], style)
                read.update([tag, around, style])
    assert {*tags, *AROUND, *STYLED} - read.keys() == set(), read


def check_begin(data: bytes, value: Node, word: str, style: str) -> None:
    """Check that a scalar begins with its style, or behind its last tag or anchor, and gets a new text there."""
    if not style:
        assert value.scalar_start == value.end and data[: value.scalar_start].endswith(word.encode()), (data, value)
        return
    assert value.scalar_start == data.index(style.encode()), (data, value)
    after = parse_nodes(apply_replacements(data, put_plaintext(data, value, b"new\n"))).nodes
    assert (value.path, value.tag, value.anchor, b"new\n") in [(n.path, n.tag, n.anchor, n.text) for n in after], data


# What tells how a block begins and ends, or might be taken for something else there.
SIGNS = "a \t\n#"


@pytest.mark.parametrize("loader", LOADERS, ids=["libyaml", "PyYAML"])
@pytest.mark.parametrize("around", (b"k: %s", b"- %s", b"k:\n- - %s", b"k: %sz: 1\n"), ids=repr)
def test_shown_texts(monkeypatch: pytest.MonkeyPatch, loader: type, around: bytes) -> None:
    """Whatever blanks and line ends a plaintext begins and ends with, what is shown in place of a block reads as it."""
    monkeypatch.setattr(yaml, "CSafeLoader", loader, raising=False)
    data = around % block("old", name="")
    [value] = [each for each in parse_nodes(data).nodes if each.is_envelope]
    for length in range(5):
        for text in map(str.encode, map("".join, product(SIGNS, repeat=length))):
            after = parse_nodes(apply_replacements(data, put_plaintext(data, value, text)))
            found = [each.text for each in after.nodes if each.path == value.path]
            assert (after.fault, found) == ("", [text]), "what is read"


def test_text_beside_anchor() -> None:
    """A colon ends an anchor, and may begin a text."""
    assert [(node.anchor, node.scalar_start, node.text) for node in parse_nodes(b"&a:b").nodes] == [("a", 2, b":b")]


def test_unknown_block() -> None:
    """Where the header of a block is not found, the value stays as it is, with a reason."""
    value = parse_nodes(b"|\n x\n").nodes[0]
    with pytest.raises(Refused, match="the `|` of its block cannot be found"):
        put_plaintext(b" |\n x\n", value, b"new")

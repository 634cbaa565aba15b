"""Lists with encrypted items. The hook lets through what is done to them every day, and no item's plaintext."""

import re

import pytest

from companion_cases import HOOK, PASSWORDS, Place
from companion_cases.repository import IN_PART, add_and_commit, told, under_git
from model.vaults import seal

pytestmark = pytest.mark.usefixtures("git")

# Each number stands for an envelope.
ENVELOPES = {b"E%d" % number: seal(PASSWORDS["old"], b"%d" % number, b"", bytes([number] * 32)) for number in range(9)}
AB = "env: [{name: A, value: E1}, {name: B, value: x}]"
TEXTS = "tokens: [E1, x]"
UNNAMED = "env: [{pw: E1}, {pw: x}]"
ABC = "env: [{name: A, value: E1}, {name: B, value: E2}, {name: C, value: x}]"
STATES = "env: [{state: on, name: A, value: E1}, {state: on, name: B, value: x}]"
BY_NAME = "env: {A: {value: E1}, B: {value: x}}"
NESTED = "s: [{name: w, env: [{name: A, value: E1}, {name: B, value: x}]}, {name: d, env: [{name: A, value: E2}]}]"
GROUPS = "g: {w: {env: [{name: A, value: E1}]}, d: {env: [{name: A, value: x}]}}"
# The content of a.yml, or those of several files, before and after a commit.
Content = str | dict[str, str]
PASSING: dict[str, tuple[Content, Content]] = {
    "a rotation, and another text": (AB, "env: [{name: A, value: E2}, {name: B, value: y}]"),
    "a rotation, and an item before": (AB, "env: [{name: C, value: y}, {name: A, value: E2}, {name: B, value: x}]"),
    "a rotation in another order": (AB, "env: [{name: B, value: y}, {value: E2, name: A}]"),
    "a rotation, and encrypted items": (
        AB,
        "env: [{name: C, value: E3}, {name: B, value: E4}, {name: A, value: E2}, {name: D, value: y}]",
    ),
    "a rotation, without the other": (AB, "env: [{name: A, value: E2}, {name: C, value: y}]"),
    "a removed item, and another text": (AB, "env: [{name: B, value: y}]"),
    "a removed value, and another text": (AB, "env: [{name: A}, {name: B, value: y}]"),
    "an item in place of another": (AB, "env: [{name: C, value: E2}, {name: B, value: y}]"),
    "another name, and another text": (AB, "env: [{name: B, value: y}, {name: C, value: E1}]"),
    "an expression, and another text": (AB, "env: [{name: A, value: '{{ y }}'}, {name: B, value: y}]"),
    "a value that moves, and another text": (AB, {"a.yml": "env: [{name: B, value: y}]", "b.yml": "pw: E1"}),
    "by name, rotated": (AB, "env: {C: {value: y}, B: {value: x}, A: {value: E2}}"),
    "a list, rotated": (BY_NAME, "env: [{name: C, value: y}, {name: B, value: x}, {name: A, value: E2}]"),
    "by name, without names": (BY_NAME, "env: {B: {value: y}, A: {value: E2}, C: {value: z}}"),
    "texts": (TEXTS, "tokens: [E2, y]"),
    "a text before": (TEXTS, "tokens: [y, E1, x]"),
    "a rotation among texts in another order": ("tokens: [E1, x, y]", "tokens: [y, E2, x, z]"),
    "items without names": (UNNAMED, "env: [{pw: E2}, {pw: y}]"),
    "an item without a name before": (UNNAMED, "env: [{pw: y}, {pw: E1}, {pw: x}]"),
    "a text that all items have": (
        STATES,
        "env: [{state: on, name: C, value: y}, {state: on, name: B, value: z}, {state: on, name: A, value: E2}]",
    ),
    "a text that some items have": (
        "env: [{kind: a, name: A, value: E1}, {kind: b, name: B, value: x}]",
        "env: [{kind: b, name: A, value: E2}, {kind: a, name: C, value: y}, {kind: c, name: D}, {kind: c, name: E}]",
    ),
    "a text that moves to a new item": (
        "env: [{port: 1, name: A, value: E1}, {port: 2, name: B, value: x}]",
        "env: [{port: 1, name: C, value: y}, {port: 3, name: A, value: E2}, {port: 4, name: B, value: z}]",
    ),
    "lists in lists": (
        NESTED,
        "s: [{name: c, env: [{name: A, value: y}]}, {name: d, env: [{name: B, value: y}, {name: A, value: E3}]},"
        " {name: w, env: [{name: C, value: y}, {name: B, value: z}, {name: A, value: E4}]}]",
    ),
    "a list of another group": (
        GROUPS,
        "g: {w: {env: [{name: A, value: E2}]}, d: {env: [{name: B, value: y}, {name: A, value: z}]}}",
    ),
    "a rotation, and the list of another file": (
        {"a.yml": AB, "b.yml": "env: [{name: A, value: x}]"},
        {"a.yml": AB.replace("E1", "E2"), "b.yml": "env: [{name: A, value: y}, {name: B, value: z}]"},
    ),
    "by name, rotated, and another file": (
        AB,
        {"a.yml": BY_NAME.replace("E1", "E2"), "b.yml": BY_NAME.replace("E1", "y")},
    ),
    "a removed text, and another name's": ({"a.yml": "t: {a: E1}", "y": ""}, {"b.yml": "t: [x]", "y": ""}),
    "a removed text, and a list elsewhere": (
        {"a.yml": "t: {a: E1}", "y": ""},
        {"b.yml": "t: {b: x}\ny: [x]", "y": ""},
    ),
}
env = IN_PART.format("env[].value")
tokens, by_name = IN_PART.format("tokens[]"), IN_PART.format("env.A.value")
inner = IN_PART.format("s[].env[].value")
# The same of commits that are to be refused, with the reason.
REFUSED: dict[str, tuple[Content, Content, str]] = {
    "in its place": (AB, "env: [{name: A, value: s}, {name: B, value: x}]", env),
    "in another order": (AB, "env: [{name: B, value: x}, {name: A, value: s}]", env),
    "while another is rotated": (ABC, "env: [{name: A, value: s}, {name: B, value: E3}, {name: C, value: y}]", env),
    "while another is encrypted": (AB, "env: [{name: A, value: s}, {name: B, value: E2}]", env),
    "while another is encrypted, in another order": (AB, "env: [{name: B, value: E2}, {name: A, value: s}]", env),
    "while another comes": (AB, "env: [{name: C, value: E2}, {name: A, value: s}, {name: B, value: x}]", env),
    "while all is done": (
        ABC,
        "env: [{name: D, value: E4}, {name: B, value: E3}, {name: E, value: z}, {name: A, value: s}]",
        env,
    ),
    "beside itself": (AB, "env: [{name: A, value: s}, {name: A_old, value: E1}, {name: B, value: x}]", env),
    "alone beside itself": (
        "env: [{value: E1, name: A}]",
        "env: [{value: E1, name: A_old}, {value: s, name: A}]",
        env,
    ),
    "with a name that another has, too": (
        "env: [{name: A, host: a, value: E1}, {name: A, host: b, value: x}]",
        "env: [{name: A, host: a, value: s}, {name: A, host: b, value: E2}]",
        env,
    ),
    "by name": (AB, "env: {B: {value: E2}, A: {value: s}}", env),
    "as a list": (BY_NAME, "env: [{name: B, value: E2}, {name: A, value: s}]", by_name),
    "a text in another order": ("tokens: [E1, E2, x]", "tokens: [E2, x, s]", tokens),
    "a text while another is rotated": ("tokens: [E1, E2, x]", "tokens: [x, E3, s]", tokens),
    "without names": ("env: [{pw: E1}, {pw: E2}]", "env: [{pw: E2}, {pw: s}]", IN_PART.format("env[].pw")),
    "a text that all have": (
        STATES,
        "env: [{state: on, name: B, value: E2}, {state: on, name: C, value: E3}, {state: on, name: A, value: s}]",
        env,
    ),
    "with another one's text": (
        "env: [{port: 1, name: A, value: x}, {port: 2, name: B, value: E1}]",
        "env: [{port: 1, name: B, value: s}]",
        env,
    ),
    "in a list in a list": (
        NESTED,
        "s: [{name: d, env: [{name: A, value: E3}]}, {name: w, env: [{name: B, value: E4}, {name: A, value: s}]}]",
        inner,
    ),
    "in a list": (AB, "env: [{name: A, value: [s]}, {name: B, value: E2}]", env),
    "in a mapping": (AB, "env: [{name: A, value: {y: s}}, {name: B, value: E2}]", env),
    "in place of an item": (AB, "env: [s, {name: B, value: E2}]", env),
    "in place of the list": (AB, "env: s", env),
    "in a file before, with an expression in its place": (
        {"b.yml": "tokens: [E1]"},
        {"a.yml": "tokens: [s]", "b.yml": "tokens: ['{{ s }}']"},
        f"a.yml {tokens}",
    ),
    "in a file after, with an expression in its place": (
        {"b.yml": "tokens: [E1]"},
        {"b.yml": "tokens: ['{{ s }}']", "c.yml": "tokens: [s]"},
        f"c.yml {tokens}",
    ),
    "in another file": ({"a.yml": AB, "y": ""}, {"b.yml": "env: [{name: A, value: s}]", "y": ""}, f"b.yml {env}"),
}
CHANGES = {what: (*change, "") for what, change in PASSING.items()} | REFUSED


def put(place: Place, content: Content) -> None:
    """Have these files alone, with envelopes in place of numbers."""
    place.shell("git rm -rfq --ignore-unmatch .")
    for name, text in (content if isinstance(content, dict) else {"a.yml": content}).items():
        place.put(name, re.sub(rb"\bE\d\b", write_envelope, text.encode() + b"\n"))


def write_envelope(number: "re.Match[bytes]") -> bytes:
    return b'!vault "%s"' % ENVELOPES[number[0]].replace(b"\n", b"\\n")


@pytest.mark.parametrize("before, after, why", CHANGES.values(), ids=CHANGES)
def test_lists(place: Place, before: Content, after: Content, why: str) -> None:
    under_git(place, "")
    put(place, before)
    add_and_commit(place)
    put(place, after)
    place.shell("git add -A")
    line = why if isinstance(after, dict) else f"a.yml {why}"
    assert told(place.run(HOOK)) == ([line] if why else [])

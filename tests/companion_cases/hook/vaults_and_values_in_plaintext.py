"""What teams do with vaults and values, which the hook lets through, and how secrets leak, which it refuses."""

from typing import NamedTuple

import pytest

from companion_cases import HOOK, TEXT, Place, block, ended, sealed, silent
from companion_cases.repository import GONE, IN_PART, WHOLE, add_and_commit, told, under_git, with_hooks

pytestmark = pytest.mark.usefixtures("git")

# The content of a.yml, or those of several files.
Content = bytes | dict[str, bytes]


class Change(NamedTuple):
    """What a commit has, what the next one has in its place, and why that is refused, if it is, with the name of the
    file if that is not a.yml."""

    before: Content
    after: Content
    why: str = ""


def indented(lines: bytes) -> bytes:
    return b"".join(b"  " + line for line in lines.splitlines(keepends=True))


def below(key: bytes, value: bytes) -> bytes:
    """Return the lines of YAML as the value of a key."""
    return key + b":\n" + indented(value)


def item(value: bytes) -> bytes:
    """Return the lines of YAML as an item of a list."""
    return b"-" + indented(value)


def users(*items: bytes) -> bytes:
    return b"users:\n" + b"".join(item(each) for each in items)


# Two vaults, and two envelopes of one value.
VAULT, OTHER = sealed("old"), sealed("new")
PW, PW2 = block("old", name="pw"), block("new", name="pw")
# Vaults that the tool does not read.
CUT = VAULT[:-100]
AES = b"$ANSIBLE_VAULT;1.0;AES\n" + b"61" * 40 + b"\n"
IN_JSON = b'{"db": {"__ansible_vault": "%s"}}\n' % VAULT.replace(b"\n", b"\\n")
# The value under another name, in plaintext, and as an expression that refers to the other name.
HIDDEN = PW.replace(b"pw:", b"vault_pw:")
PLAIN = b"pw: plain\n"
JINJA = b'pw: "{{ vault_pw }}"\n'
# A line that makes no difference.
X = b"x: 1\n"
# The value below a key, and in plaintext there.
DB, DB_PLAIN = below(b"db", PW), below(b"db", PLAIN)
CONFLICT = b"<<<<<<< HEAD\n%b=======\n%b>>>>>>> branch\n"
# A text that git compares with others, to find renames.
LINES = b"".join(b"line%d: %d\n" % (number, number) for number in range(80))

FIXTURES: dict[str, bytes] = {".gitattributes": b"t/* -ansible-vault\n"}
POINTER = b"version https://git-lfs.github.com/spec/v1\noid sha256:61\nsize 5\n"
TAB = b"\tx: 1\n"

# A vault of a short text, and a value in deep YAML.
SHORT = sealed("old", b"short")
DEEP = b"x: " + b"[" * 70 + b"]" * 70 + b"\n" + PW
COPIES = {".gitattributes": b"*.dec -ansible-vault\n"}

# An expression with many strings, and one whose string has a quote between braces.
STRINGS = b"{{ [%b] | join(' ') }}" % b", ".join(b"'item%d'" % number for number in range(40))
QUOTE = b"pw: >-\n  {{ '{{ it\\'s }}' | upper }}\n"

PASSING = {
    "an expression on several lines": Change(PW, b"pw: >-\n  {{ lookup('env',\n  'PW') }}\n"),
    "an expression with a quote in its string": Change(PW, QUOTE),
    "nothing": Change(PW + HIDDEN + DB, b"pw: ~\nvault_pw: Null\ndb: {pw: ''}\n"),
    "an empty file": Change({"a.yml": VAULT, "b.yml": PW}, {"a.yml": b"\n", "b.yml": b""}),
    "a removed item": Change(users(PW, PW2, PLAIN), users(PW2, PLAIN)),
    "another item, and another order": Change(users(PW, PW2), users(PW2, PLAIN, PW)),
    "a removed list in a playbook": Change(item(below(b"vars", PW)), {"b.yml": b"- name: x\n- plain\n"}),
    "Jinja, and the value in another file": Change(PW + X, {"a.yml": JINJA + X, "vault.yml": HIDDEN}),
    "a value that moves, and a plain one": Change(PW + X, {"a.yml": X, "b.yml": PW, "c.yml": PLAIN}),
    "values encrypted again, and defaults": Change(PW, {"a.yml": PW2, "defaults/main.yml": PLAIN}),
    "a plaintext that was there": Change({"a.yml": PW + X, "b.yml": PLAIN}, {"a.yml": X, "b.yml": PLAIN + X}),
    "a host in place of another": Change({"10.0.0.1.yml": VAULT}, {"10.0.0.2.yml": X, "a.b.yml": X, "a.c.yml": X}),
    "a renamed plain file near a vault": Change({"a/x.yml": VAULT, "b/x.yml": LINES}, {"c/x.yml": LINES + X}),
    "a role in place of another": Change({"a/vars/main.yml": VAULT}, {"b/vars/main.yml": TEXT + X}),
    "a template": Change({"a.j2": PW}, {"a.j2": b"{% if x %}\n" + PW2 + b"{% endif %}\n"}),
    "a test of the header": Change(X, {"a.py": b'HEADER = "$ANSIBLE_VAULT;1.1;AES256"\n'}),
    "a document with a cut example": Change(X, {"a.md": b"```\n" + PW[:200] + b"\n```\n"}),
    "a vault split in two": Change({"b/all.yml": VAULT}, {"b/all/vars.yml": JINJA, "b/all/vault.yml": OTHER}),
    "one vault of a name for another": Change({"a/x.yml": VAULT, "y": X}, {"b/x.yml": OTHER, "c/x.yml": X, "y": X}),
    "expressions in a file of its name": Change({"a/x.yml": VAULT, "y": X}, {"b/x.yml": JINJA}),
    "tasks and a play of its name": Change(
        {"a/x.yml": VAULT, "y": X},
        {"t/x.yml": b'- debug: "{{ x }}"\n', "x.yml": b"- hosts: x\n"},
    ),
    "a locked account beside a rotation": Change(users(PW), users(PW2, b"pw: '!'\n", b"pw: '*'\n")),
    "a value encrypted again elsewhere, and another default": Change(
        {"a.yml": PW + X, "c.yml": PLAIN},
        {"a.yml": X, "b.yml": PW2, "c.yml": b"pw: default\n"},
    ),
    "users by name": Change(users(PW), below(b"users", below(b"a", PW) + below(b"b", PLAIN))),
    "fixtures": Change(FIXTURES, FIXTURES | {"t/a.yml": VAULT, "t/b.yml": CUT, "t/c.yml": b"pw: !vault x\n" + PW2}),
    "plaintext that is encrypted": Change(PLAIN, PW),
    "a repaired file with as many values": Change(TAB + PW, PW2 + X),
    "a broken file beside a value that stays": Change({"a.yml": PW + X, "b.yml": X}, {"a.yml": PW + X, "b.yml": TAB}),
    "a broken file beside a value encrypted again": Change(
        {"a.yml": PW, "b.yml": X}, {"a.yml": PW2, "b.yml": TAB + PLAIN}
    ),
    "a broken file beside a value that moves": Change(
        {"a.yml": PW + X, "b.yml": X},
        {"a.yml": X, "b.yml": TAB, "c.yml": PW},
    ),
    "a template beside a removed value": Change({"a.yml": PW + X}, {"a.yml": X, "b.yml.j2": b"{% if x %}\n" + PLAIN}),
    "a page and binary data beside a removed value": Change(
        {"a.yml": PW + X},
        {"a.yml": X, "b.md": TAB + PLAIN, "c.bin": b"\0" + PLAIN},
    ),
    "fixtures that change": Change(FIXTURES | {"t/c.yml": PW}, FIXTURES | {"t/c.yml": PW2 + b"x: !vault x\n"}),
    "two vaults of a name for two": Change(
        {"a/x.yml": VAULT, "b/x.yml": OTHER},
        {"c/x.yml": sealed("dev"), "d/x.yml": sealed("prod"), "e/x.yml": X},
    ),
    "a text and a list without keys, and others": Change(
        {"a.yml": b"- " + PW[4:], "b.yml": PW[4:]},
        {"c.yml": PLAIN, "d.yml": b"- name: x\n", "e.txt": b"text\n"},
    ),
    "a value, and a play": Change(
        {"a.yml": PW + DB + X, "p.yml": b"- hosts: x\n"},
        {"a.yml": X, "p.yml": b"- hosts: y\n  pw: z\n"},
    ),
    "a value, and a list of another name": Change(
        {"a.yml": DB, "y": X},
        {"b.yml": b"db: [{name: x}]\nx: {pw: x}\n", "y": X},
    ),
    "a byte order mark": Change(PW, b"\xef\xbb\xbf" + PW2),
    "a variable of one play, and another in a mapping of its name": Change(
        {"p.yml": item(below(b"vars", PW)), "y": X}, {"a.yml": b"app: {pw: x}\n", "y": X}
    ),
    "a variable of a play, now a vault's": Change(
        {"p.yml": item(below(b"vars", PW)), "y": X}, {"p.yml": b"- vars: {x: 1}\n", "vault.yml": VAULT, "y": X}
    ),
    "a null with its tag": Change(PW, b"pw: !!null\n"),
    "an expression with a tag": Change(PW, b'pw: !unsafe "{{ x }}"\n'),
    "a meant copy": Change({"a.yml": VAULT}, {"a.yml": VAULT, "a.yml.dec": TEXT, **COPIES}),
    "a meant pointer": Change(VAULT, {"a.yml": POINTER, ".gitattributes": b"a.yml -ansible-vault\n"}),
    "a deep fixture": Change(FIXTURES, FIXTURES | {"t/d.yml": DEEP}),
    "an empty file beside a short vault": Change({"a.key": SHORT}, {"a.key": SHORT, "a.key.bak": b"\n"}),
    "an empty file in place of a short vault": Change({"a/x.key": SHORT, "y": X}, {"b/x.key": b"\n", "y": X}),
    "meant damage": Change(
        X, {"a.txt": CONFLICT % (PW, CUT), ".gitattributes": b"*.txt -ansible-vault diff=ansible-vault"}
    ),
}
pw, db = (IN_PART.format(key) for key in ("pw", "db.pw"))
DAMAGED = "is a damaged vault"
CUT_VALUE = "has a damaged value in line {}"
UNMERGED = "has git's conflict markers"
FEWER = "has fewer envelopes than in HEAD, and its values cannot be compared: line 1: it cannot be read as YAML: "
GONE_ROLE = f"b/vars/main.yml {GONE.format('a/vars/main.yml')}"
COPY = f"a.yml.dec {GONE.format('a.yml')}"
TAGGED = "has plaintext with the tag `!vault` in line {}"
TOKEN = "found character that cannot start any token"
REFUSED = {
    "a vault of another format": Change(AES, TEXT, WHOLE),
    "a vault, now binary": Change(VAULT, b"\0\1\2", WHOLE),
    "another folder": Change({"one/a.yml": VAULT}, {"two/a.yml": TEXT}, f"two/a.yml {GONE.format('one/a.yml')}"),
    "fewer folders": Change({"x/y/a.yml": VAULT}, {"y/a.yml": TEXT}, f"y/a.yml {GONE.format('x/y/a.yml')}"),
    "another suffix of main": Change({"main.yml": VAULT}, {"main.json": TEXT}, f"main.json {WHOLE}"),
    "another suffix, while a plain file of that stem goes": Change(
        {"g/prod": VAULT, "g/prod.yaml": PLAIN}, {"g/prod.yml": TEXT}, f"g/prod.yml {WHOLE}"
    ),
    "another suffix, which was that of a plain file": Change(
        {"x.json": VAULT, "x.yml": PLAIN}, {"x.yaml": TEXT}, f"x.yaml {WHOLE}"
    ),
    "another directory, deeper": Change({"a/x.yml": VAULT}, {"b/c/x.yml": TEXT}, f"b/c/x.yml {GONE.format('a/x.yml')}"),
    "a copy": Change({"a.yml": VAULT}, {"a.yml": VAULT, "a.yml.dec": TEXT}, f"a.yml.dec {GONE.format('a.yml')}"),
    "beside another vault of its name that changes": Change(
        {"a/x.yml": VAULT, "b/x.yml": OTHER},
        {"b/x.yml": sealed("dev", b"other\n"), "c/x.yml": TEXT},
        f"c/x.yml {GONE.format('a/x.yml')}",
    ),
    "the tag without its envelope": Change(PW + X, X + b"y: !vault plain\n", TAGGED.format(2)),
    "a renamed role": Change({"a/vars/main.yml": VAULT}, {"b/vars/main.yml": TEXT}, GONE_ROLE),
    "a list by another name": Change({"a.yml": VAULT}, {"a.txt": b"- " + TEXT}, f"a.txt {GONE.format('a.yml')}"),
    "a list and a mapping": Change(
        {"a/x.yml": VAULT},
        {"b/x.yml": b"- plain\n---\nx: 1\n"},
        f"b/x.yml {GONE.format('a/x.yml')}",
    ),
    "another case": Change({"A/x.yml": VAULT}, {"a/X.yml": TEXT}, f"a/X.yml {GONE.format('A/x.yml')}"),
    "a directory for a file": Change(
        {"b/x.yml": VAULT}, {"b/x/main.yml": TEXT}, f"b/x/main.yml {GONE.format('b/x.yml')}"
    ),
    "a file for a directory": Change({"b/x/y.yml": VAULT}, {"b/x.yml": TEXT}, f"b/x.yml {GONE.format('b/x/y.yml')}"),
    "one of two of a name": Change(
        {"a/x.yml": VAULT, "b/x.yml": OTHER},
        {"c/x.yml": sealed("dev"), "d/x.yml": TEXT},
        f"d/x.yml {GONE.format('a/x.yml')}",
    ),
    "the other of two of a name": Change(
        {"a/x.yml": VAULT, "b/x.yml": OTHER},
        {"c/x.yml": sealed("dev"), "a/x.json": TEXT},
        f"a/x.json {WHOLE}",
    ),
    "a directory for a file without suffix": Change(
        {"g/all": VAULT},
        {"g/all/x.yml": TEXT},
        f"g/all/x.yml {GONE.format('g/all')}",
    ),
    "a file without suffix for a directory": Change(
        {"g/all/x.yml": VAULT},
        {"g/all": TEXT},
        f"g/all {GONE.format('g/all/x.yml')}",
    ),
    "a key that is spelled like an item": Change(
        below(b"x", b'"[]": 1\n' + PW),
        below(b"x", b'"[]": 1\n' + PLAIN) + below(b"y", PW),
        IN_PART.format("x.pw"),
    ),
    "a mapping with such a key, by the name of a vault": Change(
        {"a/x.yml": VAULT},
        {"b/x.yml": b'"[]": plain text\n'},
        f"b/x.yml {GONE.format('a/x.yml')}",
    ),
    "a vault, now in git-lfs": Change(VAULT, POINTER, WHOLE),
    "values, now in git-lfs": Change(PW, POINTER, pw),
    "an item, while another changes": Change(users(PW, PLAIN), users(PLAIN, b"pw: x\n"), IN_PART.format("users[].pw")),
    "a list, now by name": Change(users(PW), below(b"users", below(b"a", PLAIN)), IN_PART.format("users[].pw")),
    "by name, now a list": Change(below(b"users", below(b"a", PW)), users(PLAIN), IN_PART.format("users.a.pw")),
    "a list, now texts by name": Change(users(PW), b"users: {a: plain}\n", IN_PART.format("users[].pw")),
    "lists within each other, now by name": Change(
        users(below(b"tokens", item(PW))),
        below(b"users", below(b"a", below(b"tokens", below(b"b", PLAIN)))),
        IN_PART.format("users[].tokens[].pw"),
    ),
    "a list in a mapping, now the reverse": Change(
        below(b"users", below(b"a", below(b"tokens", item(PW)))),
        users(below(b"tokens", below(b"b", PLAIN))),
        IN_PART.format("users.a.tokens[].pw"),
    ),
    "an expression with the tag": Change(X, X + b'b: !vault "{{ x }}"\n', TAGGED.format(2)),
    "nothing with the tag": Change(X, X + b"b: !vault\n", TAGGED.format(2)),
    "plaintext with the tag": Change(PW, PW + b"x: !vault plain\n", TAGGED.format(8)),
    "a repaired file": Change(TAB + PW, PLAIN, f"{FEWER}{TOKEN}"),
    "a file that is still to be repaired": Change(
        TAB + PW,
        TAB + PLAIN + b"# !vault\n",
        f"{FEWER}{TOKEN}",
    ),
    "a text that begins like a value": Change(PW, b"pw: $ANSIBLE_VAULT_KEY\n", pw),
    "a vault, now like a tag": Change(VAULT, b"!plain\n", WHOLE),
    "a vault, now like an anchor": Change({"password": VAULT}, {"password": b"&plain\n"}, f"password {WHOLE}"),
    "a vault, now like an alias": Change({"password": VAULT}, {"password": b"*plain\n"}, f"password {WHOLE}"),
    "a text like an alias": Change(PW, b"pw: *plain\n", pw),
    "a text like a tag": Change(PW, b"pw: !plain\n", pw),
    "a text like a tag, elsewhere": Change(
        {"a.yml": DB + X}, {"a.yml": X, "b.yml": b"db: {pw: !plain }\n"}, f"b.yml {db}"
    ),
    "a text like two tags": Change(DB, b"db: {app: !<plain>, pw: !plain }\n", db),
    "a text like an anchor": Change(PW, b"pw: &plain\n", pw),
    "text after an expression with many strings": Change(PW, b'pw: "%b --flag"\n' % STRINGS, pw),
    "text between expressions": Change(PW, b'pw: "{{ x }}:{{ y }}"\n', pw),
    "a statement of Jinja": Change(PW, b'pw: "{% set x = 1 %}"\n', pw),
    "a key twice": Change(PW, PW + PLAIN, pw),
    "a list for its mapping": Change(DB, b"db: [app, plain]\n", db),
    "while a plain one goes": Change(DB + PLAIN, DB_PLAIN, db),
    "two values": Change(DB + PW, DB_PLAIN + PLAIN, IN_PART.format("db.pw, pw").replace("was", "were")),
    "an item of several": Change(users(PW, PW2), users(PLAIN, PW2), IN_PART.format("users[].pw")),
    "in JSON": Change(IN_JSON, b'{"db": "plain"}\n', IN_PART.format("db")),
    "in a renamed file": Change(LINES + PW, {"b.yml": LINES + PLAIN}, f"b.yml {pw}"),
    "a variable, now of a play": Change(
        {"a.yml": PW, "y": X}, {"p.yml": b"- hosts: x\n  vars: {pw: plain}\n", "y": X}, f"p.yml {pw}"
    ),
    "a host's variable, now in the inventory": Change(
        {"host_vars/a.yml": PW, "host_vars/b.yml": PW2},
        {"hosts.yml": b"all: {children: {x: {hosts: {a: {pw: plain}}}}}\n", "host_vars/b.yml": PW2},
        f"hosts.yml {pw}",
    ),
    "a variable of a play, now of a group": Change(
        {"p.yml": item(below(b"vars", PW)), "y": X}, {"group_vars/x.yml": PLAIN, "y": X}, f"group_vars/x.yml {pw}"
    ),
    "markers and CR LF": Change(PW, (CONFLICT % (PW, PW2)).replace(b"\n", b"\r\n"), UNMERGED),
    "a torn vault": Change(VAULT, VAULT[:27] + CONFLICT % (VAULT[27:], OTHER[27:]), UNMERGED),
    "a torn value": Change(PW, PW[:60] + CONFLICT % (PW[60:], PW2[60:]), UNMERGED),
    "a cut vault again": Change(CUT, CUT[:-1], DAMAGED),
    "a cut value": Change(X, X + PW[:-100] + b"\n", CUT_VALUE.format(3)),
    "a cut comment": Change(X, {"a.sh": b"\n# " + CUT.replace(b"\n", b"\n# ")}, f"a.sh {CUT_VALUE.format(2)}"),
    "one of two values in what is no YAML": Change(TAB + PW + DB, TAB + PW + DB_PLAIN, f"{FEWER}{TOKEN}"),
    "no YAML any more": Change(PW, b"\t" + PLAIN, f"{FEWER}{TOKEN}"),
}
CHANGES = PASSING | REFUSED


def stage(place: Place, content: Content) -> None:
    """Stage these files alone."""
    place.shell("git rm -rfq --ignore-unmatch .")
    for name, text in (content if isinstance(content, dict) else {"a.yml": content}).items():
        place.put(name, text)
    place.shell("git add -A")


@pytest.mark.parametrize("change", CHANGES.values(), ids=CHANGES)
def test_changes(place: Place, change: Change) -> None:
    under_git(place, "")
    stage(place, change.before)
    place.shell("git commit -qm before")
    stage(place, change.after)
    why = change.why if isinstance(change.after, dict) else f"a.yml {change.why}"
    assert told(place.run(HOOK)) == ([why] if change.why else [])


# What two branches do before one merges the other. The file a.yml is a vault, and b.yml has a value.
MERGES = {
    "a renamed vault and a rotation": ("git mv a.yml c.yml", "cp ../new/* ."),
    "a plaintext that is meant": (
        "touch new.yml && git add .",
        "echo 'b.yml -ansible-vault' > .gitattributes && echo 'pw: x' > b.yml",
    ),
}


@pytest.mark.parametrize("theirs, ours", MERGES.values(), ids=MERGES)
def test_merges(place: Place, theirs: str, ours: str) -> None:
    """Neither the hook nor a pipeline takes what the other branch did for a leak."""
    with_hooks(place)
    for folder, vault, value in ((".", VAULT, PW), ("../new", OTHER, PW2)):
        place.put(f"{folder}/a.yml", vault)
        place.put(f"{folder}/b.yml", value + LINES)
    add_and_commit(place)
    there = f"git checkout -qb theirs && {theirs} && git commit -qam theirs && git checkout -q -"
    here = f"{ours} && touch other.yml && git add -A && git commit -qm ours && git merge -q --no-edit theirs"
    silent("a merge", place.shell(f"{there} && {here} && {HOOK} --since HEAD~1 && {HOOK} --all"))
    assert place.shell("git rev-parse HEAD^2").returncode == 0, "it is made"


def test_encryption_by_the_other_side(place: Place) -> None:
    """A merge does not keep a plaintext that the other branch has encrypted."""
    with_hooks(place)
    for name, encrypted in (("a.yml", VAULT), ("b.yml", PW)):
        place.put(name, b"pw: x\n")
        place.put(f"../new/{name}", encrypted)
    add_and_commit(place)
    there = "git checkout -qb theirs && cp ../new/* . && git commit -qam theirs && git checkout -q -"
    here = "echo '# more' | tee -a a.yml >> b.yml && git commit -qam ours && git merge -q --no-edit -X ours theirs"
    done = place.shell(f"{there} && {here}")
    ended("the merge", done, 1, "a.yml is not encrypted, but was a vault in ", "b.yml has pw in plaintext, which was ")

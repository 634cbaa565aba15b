"""Ordinary edits of files as teams have them: each is saved as it is meant, and every other byte stays.

A file is written here as a template, in which `<text>` is a value. What the editor shows and what the file has follow
from it, so an edit is a change of the template. Envelopes contain the digits of their plaintexts."""

from __future__ import annotations

import re
from collections.abc import Callable
from typing import NamedTuple

import pytest

from companion_cases.editing.random_yaml import Hexadecimal, envelope, make_draft

OLD, NEW = "<correct horse>", "<battery staple>"
BLOCK = re.compile(r"(?m)^(?P<margin>(?: *- (?!!vault))* *)(?P<key>.*!vault )<(?P<text>[^<>]*)>(?P<rest>.*)$")
QUOTED = re.compile(r'"<(?P<text>[^<>]*)>"')


class File(NamedTuple):
    """The template, a piece of it, and what takes its place to add a value."""

    template: str
    piece: str
    added: str


COMMENTS = """\
---
# Values have the tag !vault. Ask Kim before you change one!
db_host: db1.example.org
db_port: 5432   # the default
db_password: !vault <correct horse>

# old: !vault |-
#   not used any more
smtp:
    user: "mailer@example.org"
    password: !vault <Tr0ub4dor&3>   # of 2025
    tls: yes
motd: |
  Warning: !danger
  5432 is the port of the database!
"""
ANCHORS = """\
defaults: &defaults
  adapter: postgres
  port: 5432
  password: &secret !vault <correct horse>
development:
  <<: *defaults
  password: !vault <not secret>
test: {<<: *defaults, copy: *secret, host: "größe"}
"""
DOCUMENTS = """\
%YAML 1.1
---
kind: ConfigMap
data: {port: "5432", url: 'https://x/?a=!b'}
---
kind: Secret
stringData:
  password: !vault <correct horse>
...
---
kind: Secret
stringData:
  password: !vault <other>
...
"""
PLAYBOOK = """\
- hosts: web
  vars:
    db_password: !vault <correct horse>
    port: 5432
  tasks:
    - name: Vault | Start {{ service }} on {{ inventory_hostname }}!
      shell: "[ ! -f /run/x ] || start --port 5432 '{{ db_password }}'"
      when: backend != "vault" and not x
      environment:
        - !vault <an item>
        - name: kim
          password: !vault <of an item>
"""
OTHER_TAGS = """\
port: !!int "5432"
rule: !unsafe '{{ x }}!'
script:
  - !reference [.setup, script]
  - |
    curl -H "Accept: !" https://x:5432/
    %TAG is no directive here
db_password: !vault <correct horse>
url: !Sub "https://${host}"
"""
JSON = """\
{
  "port": 5432,
  "db_password": {"__ansible_vault": "<correct horse>"},
  "users": [{"name": "kim!", "password": {"__ansible_vault": "<x>"}}]
}
"""
BRACKETS = """\
port: 5432
api: {url: "https://x!", db_password: !vault "<correct horse>"}
keys: [!vault "<one>", !vault "<two>"]
"""
FILES = {
    "comments": File(COMMENTS, "    tls: yes\n", f"    tls: yes\n    token: !vault {NEW}\n"),
    "anchors": File(ANCHORS, "development:\n", f"development:\n  token: !vault {NEW}\n"),
    "documents": File(DOCUMENTS, "...\n---\n", f"---\ntoken: !vault {NEW}\n...\n---\n"),
    "a playbook": File(PLAYBOOK, "        - name: kim\n", f"        - name: kim\n          token: !vault {NEW}\n"),
    "other tags": File(OTHER_TAGS, "script:\n", f"token: !vault {NEW}  # new\nscript:\n"),
    "JSON": File(JSON, '"users": [', f'"users": [{{"__ansible_vault": "{NEW}"}}, '),
    "brackets": File(BRACKETS, "keys: [", f'keys: [!vault "{NEW}", '),
}
EDITS: dict[str, Callable[[File], str]] = {
    "nothing": lambda file: file.template,
    "a number": lambda file: file.template.replace("5432", "5433!"),
    "a text": lambda file: file.template.replace(OLD, NEW),
    "a new value": lambda file: file.template.replace(file.piece, file.added),
    "a value less": lambda file: re.sub(f".*{OLD}.*\n", "", file.template),
    "another key": lambda file: file.template.replace("password", "pass phrase"),
    "no line end": lambda file: file.template.rstrip("\n"),
    "a comment": lambda file: re.sub("^", "# why: !important; [ ! -f x ]; wow! Vault!\n", file.template),
}


def write(template: str, write_text: Callable[[re.Match[str]], str], quote: Callable[[str], str]) -> str:
    blocks = BLOCK.sub(lambda match: f"{match['margin']}{match['key']}{write_text(match)}", template)
    return QUOTED.sub(lambda match: f'"{quote(match["text"])}"', blocks)


def show(template: str) -> str:
    """Return what the editor shows."""
    return write(
        template, lambda match: f"|-{match['rest']}\n{' ' * len(match['margin'])}  {match['text']}", lambda text: text
    )


def seal(template: str) -> str:
    """Return what the file has."""

    def seal_block(match: re.Match[str]) -> str:
        margin = "\n" + " " * (len(match["margin"]) + 10)
        return margin.join([f"|{match['rest']}", *envelope(match["text"].encode()).decode().split()])

    return write(template, seal_block, lambda text: envelope(text.encode()).decode().replace("\n", "\\n"))


@pytest.mark.parametrize("ending", ["\n", "\r\n"], ids=repr)
@pytest.mark.parametrize("edit", EDITS)
@pytest.mark.parametrize("file", FILES.values(), ids=FILES)
def test_ordinary_edits(file: File, edit: str, ending: str) -> None:
    """What the editor shows is what the page says, and what is saved is what was meant. Only the new text is named."""
    changed = EDITS[edit](file)
    before, shown, typed, after = (
        text.replace("\n", ending).encode()
        for text in (seal(file.template), show(file.template), show(changed), seal(changed))
    )
    draft = make_draft(before)
    assert draft.plaintext == shown, "what the editor shows"
    saved = draft.encrypt(Hexadecimal(), typed)
    assert saved.content == after
    assert len(saved.notes) == changed.count(NEW), saved.notes

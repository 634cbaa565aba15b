"""What the rules know of the files that differ: what they have, had, and are by their attributes."""

from __future__ import annotations

import os
from collections import Counter
from functools import cached_property
from typing import Iterator, Mapping, NamedTuple

from ansible_vault_companions.envelopes.file_kinds import is_prose
from ansible_vault_companions.envelopes.header import measure_ciphertext
from ansible_vault_companions.git.attributes import Attributes
from ansible_vault_companions.git.changes import Changes, File, list_tree, split_path
from ansible_vault_companions.git.contents import Contents
from ansible_vault_companions.guard.comparison import compare_texts, find_variable
from ansible_vault_companions.guard.facts import Encryption, Reading, may_be_encrypted, read_content
from ansible_vault_companions.guard.list_items import Place

# The directory with a name of a file and, unless files in many places have it, the name alone.
Address = tuple[bytes, bytes]
ANYWHERE = b"/"
COMMON = (b"main", b"vault")


class Finding(NamedTuple):
    """Why a file is refused, and what to do about that."""

    why: str
    remedy: str


class Known:
    """The contents of blobs, and what is known of each."""

    def __init__(self, contents: Contents) -> None:
        self.contents = contents
        self.encryption = {"": Encryption()}
        self.readings = {"": Reading()}
        self.lengths: dict[str, int] = {}

    def search(self, blob: str) -> Encryption:
        """What is encrypted in a blob. Unless it may have an envelope, it is not read."""
        if blob not in self.encryption:
            content = self.contents.read(blob)
            if may_be_encrypted(content):
                self.encryption[blob], self.readings[blob] = read_content(content)
            else:
                self.encryption[blob] = Encryption()
        return self.encryption[blob]

    def read(self, blob: str) -> Reading:
        """The texts of a blob."""
        if blob not in self.readings:
            _, self.readings[blob] = read_content(self.contents.read(blob))
        return self.readings[blob]

    def read_encrypted(self, blob: str) -> Reading:
        """The texts of a blob that has an encrypted value; none of another."""
        return self.read(blob) if self.search(blob).has_value else Reading()

    def measure(self, vault: str) -> int:
        """How long the text of a vault is, with its padding; 0 if it is not known."""
        if vault not in self.lengths:
            self.lengths[vault] = measure_ciphertext(self.contents.read(vault).data)
        return self.lengths[vault]


def may_have_variables(path: bytes) -> bool:
    """Whether Ansible may read the variables of a file, by its suffix."""
    return os.path.splitext(path)[1].lower() in (b"", b".yml", b".yaml", b".json")


def _join_suffixes(files: list[File], known: Known) -> Iterator[File]:
    """The files. To Ansible, one that is `x.yaml` now, and was `x.yml`, is the same."""
    own = {file: os.path.splitext(file.name)[0] for file in files if may_have_variables(file.name)}
    # Of several that are gone, it was the one that was encrypted.
    removed = sorted((file for file in own if not file.blob), key=lambda file: known.search(file.before).is_encrypted)
    gone = {own[file]: file for file in removed}
    new = {file: gone[name] for file, name in own.items() if not file.before and name in gone}
    replaced = {*new.values()}
    for file in files:
        if file not in replaced:
            yield file._replace(before=new[file].before) if file in new else file


class Evidence:
    def __init__(self, changes: Changes, known: Known, attributes: Mapping[bytes, Attributes]) -> None:
        self.changes = changes
        self.files = [*_join_suffixes(changes.files, known)]
        self.known = known
        self.attributes = attributes
        self.since = changes.since
        # Files are compared with each other only in what is one commit by itself, since others have been checked so.
        self.is_single = changes.parent != ""

    def is_marked(self, file: File) -> bool:
        return self.attributes[file.name].is_marked

    def is_example(self, file: File) -> bool:
        """Whether a file is a document, which may have envelopes that are none."""
        return is_prose(os.fsdecode(file.name)) and not self.is_marked(file)

    @cached_property
    def removed_values(self) -> Counter[Place]:
        """How many values fewer there are at each place in all files together."""
        before, now = Counter[Place](), Counter[Place]()
        for file in self.files if self.is_single else ():
            if not (self.known.search(file.blob).is_vault or self.is_example(file)):
                texts_before, texts_now = self.known.read_encrypted(file.before), self.known.read_encrypted(file.blob)
                counts_before, counts_now = compare_texts(texts_before, texts_now)
                before.update(map(find_variable, counts_before.encrypted.elements()))
                now.update(map(find_variable, counts_now.encrypted.elements()))
        return before - now

    @cached_property
    def removed_vaults(self) -> list[File]:
        """The vaults that are gone, as they were, unless they were just renamed."""
        now = {file.blob for file in self.files}
        gone = [File(file.name, file.before) for file in self.files if not file.blob]
        return [file for file in gone if file.blob not in now and self.known.search(file.blob).is_vault]

    @cached_property
    def new_plaintexts(self) -> set[File]:
        """The new files that are no vault, and were no file of another name."""
        if not self.is_single:
            return set()
        before = {file.before for file in self.files}
        new = [file for file in self.files if not file.before and file.blob not in before]
        found = {file: self.known.search(file.blob) for file in new}
        return {file for file in new if not (found[file].is_vault or found[file].is_blank)}

    @cached_property
    def _vaults_near(self) -> dict[tuple[Address, int], File]:
        """The vaults that are or were beside new files, or have their names, by address and by the length of the text.
        Beside a new db/pw.txt, a vault db/pw.yml of 20 bytes is found by ((b"db", b"pw"), 32)."""
        addresses = {address for file in self.new_plaintexts for address in _list_addresses(file.name)}
        parts = {name if folder == ANYWHERE else folder for folder, name in addresses}
        changed = [file for file in self.files if file.blob]
        files = (*list_tree(self.changes.parent, parts), *changed) if addresses else ()
        return {
            (address, self.known.measure(file.blob)): file
            for file in files
            for address in addresses & _list_addresses(file.name)
        }

    def find_vault_near(self, file: File, length: int) -> File | None:
        """A vault beside a new file, or with its name, whose text has this length."""
        vaults = (self._vaults_near.get((address, length)) for address in sorted(_list_addresses(file.name)))
        return next(filter(None, vaults), None)


def list_names(name: bytes) -> set[bytes]:
    """The name of a file, with its suffix and without it."""
    name = name.lower().rstrip(b"~")
    return {name, os.path.splitext(name)[0]}


def _list_addresses(path: bytes) -> set[Address]:
    folder, name = split_path(path)
    addresses = {(folder, each) for each in list_names(name)}
    return addresses if name.partition(b".")[0] in COMMON else {*addresses, (ANYWHERE, name)}

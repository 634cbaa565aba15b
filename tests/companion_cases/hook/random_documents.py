"""Random YAML documents with values, and random commits. The hook lets through what is done to documents every day, and
names nearly all documents in which a value becomes plaintext in the same commit. It misses some lists that become
mappings, or the reverse, while others of their texts are encrypted or change."""

import json
import subprocess
from collections import Counter
from collections.abc import Callable, Iterator
from dataclasses import dataclass, field
from pathlib import Path
from random import Random

from hypothesis import given, settings
from hypothesis import strategies as st

from companion_cases.repository import find_refused_files, make_envelope, stage_alone

EXAMPLES, DOCUMENTS = 20, 40
NAME_KEYS = ["name", "id", "user"]
# What takes the place of a value, forms of its plaintext, and a text that all items have.
NOTHING = ["~", "''", "'!'", '"*"', '"{{ y }}"', '" {{ x }} {{ y }} "']
PLAIN = ["{}", "[{}]", "{{y: {}}}", "!vault {}", "'{{{{ x }}}}{}'"]
COMMON = "present"


@dataclass
class Text:
    """A scalar: the number of an envelope, or YAML as it stands."""

    content: int | str
    was_encrypted: bool = False


@dataclass
class Texts:
    """A list of texts."""

    texts: list[Text]
    may_leak: bool = True


@dataclass
class Item:
    name: str
    values: dict[str, "Node"]
    is_renamed: bool = False


@dataclass
class Items:
    """A list of mappings, one of whose keys names them; or a mapping by name."""

    key: str
    is_list: bool
    items: list[Item] = field(default_factory=list)


@dataclass
class Mapping:
    values: dict[str, "Node"]


Node = Text | Texts | Items | Mapping


def list_nodes(node: Node) -> Iterator[Node]:
    """Yield a node and what is below it, but for lists of texts."""
    yield node
    if isinstance(node, Mapping):
        for value in [*node.values.values()]:
            yield from list_nodes(value)
    if isinstance(node, Items):
        for item in [*node.items]:
            yield from list_nodes(Mapping(item.values))


def list_texts(node: Node, may_leak: bool = False) -> Iterator[Text]:
    """Yield all texts, or those that may become plaintext: where an item has a new name, its text may be a new one."""
    if isinstance(node, Text):
        yield node
    elif isinstance(node, Texts):
        yield from node.texts if node.may_leak or not may_leak else []
    elif isinstance(node, Mapping):
        for value in node.values.values():
            yield from list_texts(value, may_leak)
    else:
        for item in node.items:
            if not (may_leak and item.is_renamed):
                yield from list_texts(Mapping(item.values), may_leak)


def write_node(node: Node) -> str:
    """Return the node as YAML in one line."""
    if isinstance(node, Text):
        return write_text(node.content)
    if isinstance(node, Texts):
        return "[%s]" % ", ".join(write_text(text.content) for text in node.texts)
    if isinstance(node, Mapping):
        return "{%s}" % ", ".join(f"{key}: {write_node(value)}" for key, value in node.values.items())
    if node.is_list:
        return "[%s]" % ", ".join(write_item(node.key, item) for item in node.items)
    return "{%s}" % ", ".join(f"{item.name}: {write_node(Mapping(item.values))}" for item in node.items)


def write_item(key: str, item: Item) -> str:
    """Return an item with its name, which is first or second."""
    first, *others = item.values.items()
    name: tuple[str, Node] = (key, Text(item.name))
    return write_node(Mapping(dict([first, name, *others] if item.name.startswith("nn") else [name, first, *others])))


def write_text(content: int | str) -> str:
    if isinstance(content, str):
        return content
    return f"!vault {json.dumps(make_envelope(content).decode())}"


class Author:
    """Makes a document, and changes it. Who removes values adds no plaintext to lists, since it may be theirs."""

    def __init__(self, random: Random, top: str) -> None:
        self.random = random
        self.is_removing = random.random() < 0.5
        self.document = Mapping({top: self.make_node(3)})

    def happens(self, chance: float) -> bool:
        return self.random.random() < chance

    def make_name(self) -> str:
        return f"{self.random.choice(['n', 'nn'])}{self.random.randrange(1 << 60)}"

    def make_text(self, may_be_plain: bool = True) -> Text:
        number = self.random.randrange(1 << 60)
        return Text(f"text{number}" if may_be_plain and self.happens(0.5) else number)

    def make_node(self, depth: int) -> Node:
        kinds: list[Callable[[int], Node]] = [lambda _: self.make_text(), self.make_texts]
        if depth:
            kinds += [self.make_mapping, self.make_items, self.make_items]
        return self.random.choice(kinds)(depth - 1)

    def make_texts(self, _: int) -> Texts:
        return Texts([self.make_text() for _ in range(self.random.randint(1, 4))])

    def make_mapping(self, depth: int) -> Mapping:
        nodes = [self.make_node(depth) for _ in range(self.random.randint(1, 3))]
        return Mapping({f"{type(node).__name__}{number}": node for number, node in enumerate(nodes)})

    def make_items(self, depth: int) -> Items:
        items = Items(self.random.choice(NAME_KEYS), is_list=self.happens(0.8))
        keys = ["value", "other"][: self.random.randint(1, 2)]
        for _ in range(self.random.randint(1, 4)):
            item = self.make_item(keys)
            if self.happens(0.2):
                inner = self.make_node(depth)
                item.values[type(inner).__name__] = inner
            items.items.append(item)
        return items

    def make_item(self, keys: list[str]) -> Item:
        values: dict[str, Node] = {key: self.make_text(not self.is_removing) for key in keys}
        return Item(self.make_name(), {**values, "state": Text(COMMON)})

    def change(self) -> None:
        """Do what is done every day."""
        for text in list_texts(self.document):
            text.was_encrypted = isinstance(text.content, int)
        for node in [*list_nodes(self.document)]:
            if isinstance(node, Text):
                self.change_text(node)
            elif isinstance(node, Texts):
                self.change_texts(node)
            elif isinstance(node, Items):
                self.change_items(node)

    def change_text(self, text: Text) -> None:
        """Encrypt it, or give it another content."""
        if not text.was_encrypted and text.content != COMMON and self.happens(0.5):
            text.content = self.make_text().content
        elif text.was_encrypted and self.happens(0.4):
            text.content = self.make_text(may_be_plain=False).content
        elif self.is_removing and self.happens(0.2):
            text.content = self.random.choice(NOTHING)

    def change_texts(self, texts: Texts) -> None:
        """Without names, either the places stay or the texts do."""
        if self.happens(0.5):
            for text in texts.texts:
                if self.happens(0.5):
                    text.content = self.make_text(not (text.was_encrypted or self.is_removing)).content
            return
        self.random.shuffle(texts.texts)
        if self.is_removing:
            del texts.texts[: self.random.randint(0, 2)]
        elif self.happens(0.5):
            text = self.make_text()
            texts.may_leak = isinstance(text.content, str)
            texts.texts.insert(self.random.randint(0, len(texts.texts)), text)

    def change_items(self, items: Items) -> None:
        if self.happens(0.3):
            self.random.shuffle(items.items)
        if self.happens(0.2):
            items.is_list = not items.is_list
        for item in [*items.items]:
            had_values = any(text.was_encrypted for text in list_texts(Mapping(item.values)))
            if self.happens(0.1) and (self.is_removing or not had_values):
                items.items.remove(item)
            elif self.happens(0.1) and not had_values:
                item.name, item.is_renamed = self.make_name(), True
        while self.happens(0.4):
            keys = [key for key in ("value", "other") if items.items and key in items.items[0].values]
            items.items.insert(self.random.randint(0, len(items.items)), self.make_item(keys or ["value"]))

    def leak(self) -> bool:
        """Put a value's plaintext in its place, if there is a value that was there before."""
        texts = list_texts(self.document, may_leak=True)
        values = [text for text in texts if text.was_encrypted and isinstance(text.content, int)]
        for text in self.random.sample(values, min(len(values), 1)):
            text.content = self.random.choice(PLAIN).format(f"text{self.random.randrange(1 << 60)}")
        return bool(values)


def stage(folder: Path, authors: dict[str, Author]) -> None:
    stage_alone(folder, {name: f"{write_node(author.document)}\n".encode() for name, author in authors.items()})


def find_refused(folder: Path, authors: dict[str, Author]) -> set[str]:
    """Stage the documents, and return those that the hook refuses."""
    stage(folder, authors)
    return find_refused_files()


def test_documents(own_repository: Path) -> None:
    counts: Counter[str] = Counter()

    @settings(max_examples=EXAMPLES, deadline=None, database=None)
    @given(st.integers(0, 1 << 64).map(Random))
    def commit(random: Random) -> None:
        # No two have the same first key, so that no value may have moved from one to another.
        authors = {f"{number}.yml": Author(random, f"top{number}") for number in range(DOCUMENTS)}
        stage(own_repository, authors)
        subprocess.run(["git", "commit", "-qm", "one", "--no-verify", "--allow-empty"], check=True)
        for author in authors.values():
            author.change()
        assert find_refused(own_repository, authors) == set(), "nothing is leaked"
        leaks = {name for name, author in authors.items() if author.leak()}
        found = find_refused(own_repository, authors)
        assert found - leaks == set(), "nothing else is named"
        counts.update(passes=DOCUMENTS, leaks=len(leaks), missed=len(leaks - found))

    commit()
    assert counts["passes"] >= 400 and counts["leaks"] >= 100, counts
    assert counts["missed"] <= counts["leaks"] / 75, counts

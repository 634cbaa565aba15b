"""Merges three versions of a file with envelopes that is no vault.

A token stands for each envelope while git merges the lines. It is the same for values that mean the same and are laid
out alike. One that a password decrypts means its text under the credential that it has in the result. Any other means
itself.

So each use of a token is right in its place, once it is under the credential of the result. Which of them is taken only
decides which envelope that is: of a version that has changed them, and in the order that they have there. Here, E1 and
E2 have the same text:

    base    a: E1, b: E2
    ours    b: E2           it has other envelopes than the base
    theirs  a: E1, b: E2
    merged  b: E2
"""

from __future__ import annotations

import os
import re
from collections import Counter, defaultdict
from collections.abc import Hashable
from functools import partial
from typing import NamedTuple

from ansible_vault_companions.envelopes import conflicts
from ansible_vault_companions.envelopes.layout import Replacement, apply_replacements, replace_envelope
from ansible_vault_companions.envelopes.node import LITERAL, STRAY, Node
from ansible_vault_companions.envelopes.parsed_text import ParsedText, parse_envelopes
from ansible_vault_companions.merging.line_merge import (
    BASE,
    OURS,
    SIDES,
    THEIRS,
    OneSideOnly,
    Versions,
    merge_lines,
)
from ansible_vault_companions.merging.result_credential import VersionCredentials, choose_value_credential
from ansible_vault_companions.parallel import work_at_once
from ansible_vault_companions.passwords.labels import Credential
from ansible_vault_companions.refusals import Refused
from ansible_vault_companions.tool import Decrypt, Decryption, Tool

MERGED_NOT_YAML = "git can merge its lines, but then {}"
HAS_MARKERS = "it has lines that look like git's conflict markers"
NEW_VALUE = "git can merge its lines, but the result has a value that neither side has"
SIDE_BY_MARKER = {conflicts.OURS_MARKER: OURS, conflicts.BASE_MARKER: BASE, conflicts.THEIRS_MARKER: THEIRS}


class Plaintext(NamedTuple):
    """The text of an envelope, its credential, and the one that it has in the result."""

    text: bytes
    credential: Credential
    new_credential: Credential


class Piece(NamedTuple):
    """Bytes of the result, and the envelope in them, which is empty if there is none."""

    data: bytes
    envelope: bytes = b""
    is_in_conflict: bool = False


class Use(NamedTuple):
    """An envelope of a version, and the token in its place."""

    value: Node
    token: bytes
    # The bytes between the start of the token and the envelope, and all that the token stands for.
    head: bytes
    piece: Piece
    # None if all versions have the envelope, or no password decrypts it.
    plaintext: Plaintext | None

    @property
    def is_settled(self) -> bool:
        """Whether the result can have it as it is."""
        return self.plaintext is None or self.plaintext.credential == self.plaintext.new_credential


class Cursor:
    """Goes through the uses of a token in a version, and stays at the last one."""

    def __init__(self) -> None:
        self.uses: list[Use] = []
        self.place = 0

    def list_rest(self) -> list[bytes]:
        """The envelopes from here on."""
        return [use.value.text for use in self.uses[self.place :]]

    def take_use(self) -> Use:
        use = self.uses[self.place]
        self.place = min(self.place + 1, len(self.uses) - 1)
        return use


class MergedValues(NamedTuple):
    """The merged file, how many conflicts it has, and why a value in one was not decrypted, if one was not."""

    content: bytes
    conflicts: int
    why: str


def merge_values(tool: Tool, decrypt: Decrypt, versions: Versions, chosen: Credential | None) -> MergedValues:
    parsed = {side: _parse_version(data) for side, data in zip(SIDES, versions)}
    differing = _list_differing(parsed)
    results = dict(zip(differing, work_at_once(partial(_try_to_decrypt, decrypt), differing)))
    decrypted = [result for result in results.values() if isinstance(result, Decryption)]
    plaintexts = _find_plaintexts(decrypted, parsed, chosen)
    mark = b"ansible-vault-%s" % os.urandom(12).hex().encode()
    uses = _list_uses(parsed, plaintexts, mark)
    text, count = merge_lines(Versions(*(_put_tokens(parsed[side].data, uses[side], mark) for side in SIDES)))
    if count and any(conflicts.count_markers(data) for data in versions):
        raise OneSideOnly(HAS_MARKERS)
    restored = _restore_uses(_drop_separators(text, mark), count > 0, uses, mark)
    new = iter(work_at_once(partial(_encrypt_use, tool), [each for each in restored if isinstance(each, Use)]))
    pieces = [next(new) if isinstance(each, Use) else each for each in restored]
    content = b"".join(piece.data for piece in pieces)
    _check_result(content, count > 0, parsed, [piece.envelope for piece in pieces if piece.envelope])
    faults = [results[piece.envelope] for piece in pieces if piece.is_in_conflict and piece.envelope in results]
    why = next((str(fault) for fault in faults if isinstance(fault, Refused)), "")
    return MergedValues(content, count, why)


def _parse_version(data: bytes) -> ParsedText:
    """A text with those of its envelopes that can be replaced."""
    parsed = parse_envelopes(data)
    return parsed._replace(values=[value for value in parsed.envelopes if not value.is_loose])


def _list_differing(parsed: dict[str, ParsedText]) -> list[bytes]:
    """The envelopes that not all versions have."""
    texts = [{value.text for value in version.values} for version in parsed.values()]
    return sorted(set[bytes]().union(*texts).difference(set.intersection(*texts)))


def _try_to_decrypt(decrypt: Decrypt, envelope: bytes) -> Decryption | Refused:
    """The plaintext of an envelope, or why there is none: a password has to decrypt it that may encrypt it again."""
    try:
        decrypted = decrypt(envelope)
        decrypted.require_credential()
    except Refused as fault:
        return fault
    return decrypted


def _find_plaintexts(
    decrypted: list[Decryption], parsed: dict[str, ParsedText], chosen: Credential | None
) -> dict[bytes, Plaintext]:
    credentials = {each.envelope: each.require_credential() for each in decrypted}
    new = _choose_credentials(parsed, credentials, chosen)
    plaintexts = {}
    for each in decrypted:
        credential = credentials[each.envelope]
        plaintexts[each.envelope] = Plaintext(each.plaintext, credential, new[credential])
    return plaintexts


def _choose_credentials(
    parsed: dict[str, ParsedText], credentials: dict[bytes, Credential], chosen: Credential | None
) -> dict[Credential, Credential]:
    """The credential of the result for each credential of these envelopes, which keep it if the sides do not agree."""
    new = {}
    for credential in {*credentials.values()}:
        ours, base, theirs = (_list_credentials(parsed[side], credential.label, credentials) for side in SIDES)
        new[credential] = choose_value_credential(credential.label, ours, base, theirs, chosen) or credential
    return new


def _list_credentials(version: ParsedText, label: str, credentials: dict[bytes, Credential]) -> VersionCredentials:
    """The credentials of a version's values with a label."""
    return {credentials.get(value.text) for value in version.values if value.label == label}


def _list_uses(parsed: dict[str, ParsedText], plaintexts: dict[bytes, Plaintext], mark: bytes) -> dict[str, list[Use]]:
    """The uses in each version. Those that mean the same and are laid out alike have the same token."""
    tokens: dict[Hashable, bytes] = {}
    uses: dict[str, list[Use]] = {side: [] for side in SIDES}
    for side, version in parsed.items():
        for value in version.values:
            head = version.data[value.scalar_start : value.envelope_start]
            plaintext = plaintexts.get(value.text)
            meaning = (plaintext.new_credential, plaintext.text) if plaintext else value.text
            identity = (meaning, value.style, head, value.margin, value.ending)
            token = tokens.setdefault(identity, b"%s-%d" % (mark, len(tokens)))
            piece = Piece(version.data[value.scalar_start : value.end], value.text)
            uses[side].append(Use(value, token, head, piece, plaintext))
    return uses


def _put_tokens(data: bytes, uses: list[Use], mark: bytes) -> bytes:
    """The data of a version, with tokens in place of its envelopes."""
    changes = []
    for use in uses:
        value, text = use.value, use.token
        if value.style in (LITERAL, STRAY):
            # A line of its own below it keeps the lines of two values apart.
            text += b"%s%s/%s" % (value.ending, mark, value.name.encode().hex().encode())
        changes.append(Replacement(value.scalar_start, value.end, text))
    return apply_replacements(data, changes)


def _drop_separators(text: bytes, mark: bytes) -> bytes:
    """The merged text without the lines that keep values apart; at the end of a file without a last line end, with the
    line end above them."""
    line = rb"%s/[^\n]*" % mark
    return re.sub(rb"(?m)^%s\n|\r?\n(?:%s\n)*%s\Z" % (line, line, line), b"", text)


def _restore_uses(text: bytes, is_unmerged: bool, uses: dict[str, list[Use]], mark: bytes) -> list[Piece | Use]:
    """The merged text in pieces, with envelopes in place of tokens, or uses that are to be encrypted."""
    cursors: dict[bytes, dict[str, Cursor]] = defaultdict(lambda: {side: Cursor() for side in SIDES})
    for side in SIDES:
        for use in uses[side]:
            cursors[use.token][side].uses.append(use)
    restored: list[Piece | Use] = []
    for kind, part in conflicts.split_parts(text, is_unmerged):
        for word in re.split(rb"(%s-\d+)" % mark, part):
            if word not in cursors:
                restored.append(Piece(word))
            elif kind in SIDE_BY_MARKER:
                # A side of a conflict has its own.
                piece = cursors[word][SIDE_BY_MARKER[kind]].take_use().piece
                restored.append(piece._replace(is_in_conflict=True))
            else:
                restored.append(_choose_use(cursors[word]))
    return restored


def _choose_use(cursors: dict[str, Cursor]) -> Piece | Use:
    """What a token outside of conflicts stands for, where every version goes on to its next use.

    That is the use of ours if it has other envelopes than the base from here on, and else that of theirs. If that is
    not under the credential of the result, another version's is taken that is.
    """
    is_ours_changed = cursors[OURS].list_rest() != cursors[BASE].list_rest()
    order = (OURS, THEIRS, BASE) if is_ours_changed else (THEIRS, OURS, BASE)
    uses = [cursors[side].take_use() for side in order if cursors[side].uses]
    for use in uses:
        if use.is_settled:
            return use.piece
    return uses[0]


def _encrypt_use(tool: Tool, use: Use) -> Piece:
    """It under the credential of the result. Copies stay copies, and other envelopes with the same text differ."""
    assert use.plaintext
    envelope = tool.encrypt_again(use.value.text, use.plaintext.text, use.plaintext.new_credential)
    return Piece(use.head + replace_envelope(use.value, envelope).text, envelope)


def _check_result(content: bytes, has_conflict: bool, parsed: dict[str, ParsedText], envelopes: list[bytes]) -> None:
    """Refuses a result that is no YAML though both sides are, or that has other envelopes than these."""
    texts = conflicts.split_sides(content).values() if has_conflict else [content]
    results = [_parse_version(text) for text in texts]
    if not has_conflict and results[0].fault and not any(parsed[side].fault for side in (OURS, THEIRS)):
        raise Refused(MERGED_NOT_YAML.format(results[0].fault))
    found = Counter(value.text.strip() for result in results for value in result.values)
    wanted = Counter(envelope.strip() for envelope in envelopes)
    if found.keys() != wanted.keys() or not has_conflict and found != wanted:
        raise Refused(NEW_VALUE)

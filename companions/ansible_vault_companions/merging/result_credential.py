"""Which password and label the result of a merge gets: those of both sides, or the new ones if one side alone rotated
to another password with the same labels; else the chosen ones."""

from __future__ import annotations

from typing import AbstractSet, Optional

from ansible_vault_companions.passwords.labels import Credential
from ansible_vault_companions.quoting import escape
from ansible_vault_companions.refusals import Refused

TWO_PASSWORDS = "the passwords of the two sides differ; CONFLICTS in `man ansible-vault-edit` says how to choose one"
TWO_LABELS = "the labels differ: {} in ours, {} in theirs; choose one with --encrypt-vault-id"
# The credentials of a version's envelopes; None for an envelope that has none.
VersionCredentials = AbstractSet[Optional[Credential]]


def choose_vault_credential(
    ours: Credential, base: VersionCredentials, theirs: Credential, chosen: Credential | None
) -> Credential:
    """The credential of a merged vault. Refuses sides that do not agree on one, if none is chosen."""
    credential = _find_agreed_credential({ours}, base, {theirs}) or chosen
    if credential:
        return credential
    if ours.label == theirs.label:
        raise Refused(TWO_PASSWORDS)
    raise Refused(TWO_LABELS.format(escape(ours.label), escape(theirs.label)))


def choose_value_credential(
    label: str,
    ours: VersionCredentials,
    base: VersionCredentials,
    theirs: VersionCredentials,
    chosen: Credential | None,
) -> Credential | None:
    """The credential of the merged values with a label; None if each keeps its own. Unlike a vault, a value keeps its
    label, so the chosen credential is only for those with its label."""
    credential = _find_agreed_credential(ours, base, theirs)
    if credential is None and chosen and chosen.label == label and ours != theirs:
        return chosen
    return credential


def _find_agreed_credential(
    ours: VersionCredentials, base: VersionCredentials, theirs: VersionCredentials
) -> Credential | None:
    """The credential of both sides; or, if one side alone changed it to another with the same labels, the new one."""
    if base == theirs or ours == theirs:
        new = ours
    elif base == ours:
        new = theirs
    else:
        return None
    labels = {(credential.password.label, credential.label) for credential in ours | theirs if credential}
    has_one_each = len(ours) == len(theirs) == 1 and None not in ours | theirs
    return next(iter(new)) if has_one_each and len(labels) == 1 else None

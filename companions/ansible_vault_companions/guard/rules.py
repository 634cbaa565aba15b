"""All rules for a file that differs. Each is in the module that is named after it."""

from __future__ import annotations

from typing import Iterator

from ansible_vault_companions.git.changes import File
from ansible_vault_companions.guard import copy_rule, envelope_rule, file_rule, value_rule
from ansible_vault_companions.guard.evidence import Evidence, Finding

# A cause comes before its effects: a vault with conflict markers is not encrypted, either.
RULES = (envelope_rule.check_file, file_rule.check_file, copy_rule.check_file, value_rule.check_file)


def check_files(evidence: Evidence) -> Iterator[tuple[File, Finding]]:
    """The first finding for each file that no line allows."""
    for file in evidence.files:
        if file.blob and not evidence.attributes[file.name].is_exempt:
            findings = (check_file(evidence, file) for check_file in RULES)
            finding = next(filter(None, findings), None)
            if finding:
                yield file, finding

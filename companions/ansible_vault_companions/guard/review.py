"""Which changes are checked: what is staged, those of all later commits (--since), or all files (--all)."""

from __future__ import annotations

import os

from ansible_vault_companions.git import changes
from ansible_vault_companions.git.attributes import Attributes, make_line, read_attributes, report_warnings
from ansible_vault_companions.git.changes import DIGITS, Changes, File
from ansible_vault_companions.git.contents import Contents
from ansible_vault_companions.git.pathspecs import make_pathspec
from ansible_vault_companions.guard.evidence import Evidence, Finding, Known
from ansible_vault_companions.guard.rules import check_files
from ansible_vault_companions.output import write_error
from ansible_vault_companions.quoting import escape

ALLOW = "to allow plaintext there, add and stage this line at the end of .gitattributes: {}"
IN_COMMIT = " in that commit, for example with `git rebase -i {}`"


def review_staged(program: str, paths: list[str]) -> bool:
    """Whether the staged changes have no finding, nor the files at or below these paths, changed or not."""
    named = [Changes(changes.list_named(paths))] if paths else []
    return _review(program, [*changes.list_staged(), *named])


def review_since(program: str, name: str) -> bool:
    """The same of each later commit."""
    changes.require_whole_history()
    first, last = changes.find_commit(name), changes.find_commit("HEAD")
    return _review(program, [*changes.list_commits(f"{first}..{last}")])


def review_all(program: str) -> bool:
    """The same of the last commit, and of all files that it has."""
    changes.require_whole_history()
    last = changes.find_commit("HEAD")
    files = Changes(changes.list_tree(last), marks=last)
    return _review(program, [*changes.list_commits("--max-count=1", last), files])


def _review(program: str, all_changes: list[Changes]) -> bool:
    """Reports each refused content of a file once, with what to do about it in a second line."""
    attributes = _read_attributes(program, all_changes)
    reported = set[File]()
    with Contents() as contents:
        known = Known(contents)
        for each in all_changes:
            for file, finding in check_files(Evidence(each, known, attributes[each.marks])):
                content = file._replace(before="")
                if content not in reported:
                    reported.add(content)
                    where = f"{each.commit[:DIGITS]}: " if each.commit else ""
                    write_error(f"{program}: {where}{escape(os.fsdecode(file.name))} {finding.why}")
                    write_error(f"  {_write_advice(file, finding, each)}")
    return not reported


def _read_attributes(program: str, all_changes: list[Changes]) -> dict[str, dict[bytes, Attributes]]:
    """The attributes of all files, by the commits that they are read from. git's warnings are passed on."""
    names: dict[str, set[bytes]] = {}
    for each in all_changes:
        names.setdefault(each.marks, set()).update(file.name for file in each.files)
    attributes, warnings = {}, []
    for marks, files in names.items():
        attributes[marks], overlooked = read_attributes(files, marks)
        warnings += overlooked
    report_warnings(program, warnings)
    return attributes


def _write_advice(file: File, finding: Finding, of: Changes) -> str:
    path = make_pathspec(os.fsdecode(file.name), is_below_top=True)
    remedy = finding.remedy.format(path=path) + (IN_COMMIT.format(of.base) if of.commit else "")
    return f"{remedy}; {ALLOW.format(make_line(file.name))}"

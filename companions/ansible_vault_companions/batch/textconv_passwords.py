"""Which password files `git diff` has in this clone: those that the options in the setting of textconv name."""

from __future__ import annotations

import argparse
import os
import shlex
from contextlib import suppress

from ansible_vault_companions.git import installing
from ansible_vault_companions.git.commands import find_top
from ansible_vault_companions.passwords import options
from ansible_vault_companions.passwords.settings import expand_path
from ansible_vault_companions.refusals import Refused


def textconv_lacks(paths: list[str]) -> bool:
    """Whether `git diff` is set up in this clone, but without one of these password files."""
    setting = installing.read_setting(installing.TEXTCONV)
    if installing.SETTINGS[installing.TEXTCONV][0] not in setting:
        return False
    # git runs textconv there.
    top = find_top()
    given = {_identify_file(path, top) for path in _list_files(setting)}
    return not {_identify_file(path) for path in paths} <= given - {None}


def _list_files(setting: str) -> list[str]:
    """The paths of the password files that a setting names; none if its command line is invalid."""
    parser = argparse.ArgumentParser(add_help=False, allow_abbrev=False, exit_on_error=False)
    options.add_options(parser)
    try:
        args, _ = parser.parse_known_args(shlex.split(setting))
    except (ValueError, argparse.ArgumentError):
        return []
    return options.list_files(args.vault_id, args.vault_password_file)


def _identify_file(path: str, folder: str = "") -> tuple[int, int] | None:
    """Which file a path leads to, however it is written; None if it leads to none."""
    with suppress(Refused, OSError):
        status = os.stat(expand_path(path, folder))
        return status.st_dev, status.st_ino
    return None

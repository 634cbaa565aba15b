"""Sets up the hooks of a clone and the git settings that run the other companions, and undoes that.

A link to a program of this name counts as made by --install, and so does a setting that runs the companion.
"""

from __future__ import annotations

import os
import shlex
from contextlib import suppress

from ansible_vault_companions.files import link_bounds
from ansible_vault_companions.git.commands import read_line, run_git
from ansible_vault_companions.quoting import escape, quote_word
from ansible_vault_companions.refusals import Refused

# The status of the merge driver if both sides are in the file, with conflict markers. It is git's greatest one for a
# conflict, and neither Python nor a shell ends with it otherwise.
CONFLICT = 128
# If the driver could not write to the file at all. Settings of earlier versions, too, then run git's own merge.
NOTHING_WRITTEN = 2
# However else the driver ends, git's own merge leaves a conflict; git itself would keep ours without a word.
OR_ELSE = f' || {{ [ "$?" -eq {CONFLICT} ] || git merge-file -q %A %O %B; exit 1; }}'
TEXTCONV = "diff.ansible-vault.textconv"
# The git settings, each with the companion that it runs and the arguments after the passwords.
SETTINGS = {
    TEXTCONV: ("ansible-vault-textconv", ""),
    "merge.ansible-vault.driver": ("ansible-vault-merge", f" %O %A %B %P{OR_ELSE}"),
}
# With this setting, git would keep plaintext as its own objects, which a push may publish.
CACHE, NO_CACHE = "diff.ansible-vault.cachetextconv", "false"
# Where hooks are in git's own directory, unless core.hooksPath is set.
HOOKS = "hooks"
# The name of a new link until it takes the place of the old one. Nobody else uses it.
BESIDE = ".ansible-vault-hook.new"
NO_PASSWORDS = """\
git diff and git merge stay as they are; to set them up, run this with passwords:
  --install --vault-id dev@~/.vault/dev.pass"""
MARKS = """\
git diff and git merge recognize vaults by .gitattributes; for the whole team, add lines to it, such as
  **/group_vars/**/vault.yml diff=ansible-vault merge=ansible-vault"""


def list_hooks() -> list[str]:
    """The paths of this repository's hooks. A relative core.hooksPath starts from its top, which must be the current
    directory."""
    folder = _find_folder()
    return [os.path.join(folder, name) for name in ("pre-commit", "pre-merge-commit")]


def _find_folder() -> str:
    """The directory of the hooks. Refuses one that core.hooksPath names if a link leads out of the repository. Links in
    git's own directory are the user's."""
    folder, own = read_line("rev-parse", "--git-path", HOOKS), read_line("rev-parse", "--git-common-dir")
    if folder == os.path.join(own, HOOKS):
        return os.path.abspath(folder)
    try:
        return link_bounds.resolve_path(folder)
    except Refused as fault:
        raise Refused(f"core.hooksPath: {fault}") from None


def install_hook(hook: str, program: str) -> str:
    """Installs a hook, and says what was done. One that is there already works until the new one takes its place."""
    if os.path.lexists(hook) and not _is_ours(hook, program):
        raise Refused(f"exists already; add this line below its first one: {quote_word(program)} || exit 1")
    beside = os.path.join(os.path.dirname(hook), BESIDE)
    with suppress(FileNotFoundError):
        os.unlink(beside)
    os.symlink(program, beside)
    os.replace(beside, hook)
    return "installed"


def uninstall_hook(hook: str, program: str) -> str:
    if _is_ours(hook, program):
        os.unlink(hook)
        return "removed"
    return "left alone, since --install did not make it" if os.path.lexists(hook) else "not installed"


def _is_ours(hook: str, program: str) -> bool:
    return os.path.islink(hook) and os.path.basename(os.readlink(hook)) == os.path.basename(program)


def make_setting(setting: str, program: str, passwords: list[str]) -> str:
    """The command for a setting, with the companion's whole path: PATH may be another one where git runs."""
    name, rest = SETTINGS[setting]
    beside = os.path.join(os.path.dirname(program), name)
    path = beside if os.path.exists(beside) else os.path.join(os.path.dirname(os.path.realpath(program)), name)
    words = shlex.join([path, *passwords])
    # git replaces what follows a percent sign in the command of a merge driver.
    return (words.replace("%", "%%") if "%" in rest else words) + rest


def read_setting(setting: str, *options: str) -> str:
    """The value of a setting; empty if it is not set. Without a default, git would have the status of a failure."""
    return read_line("config", *options, "--default", "", "--get", setting)


def _runs_companion(value: str, setting: str) -> bool:
    """Whether the first word of a setting is the name or the path of its companion."""
    try:
        words = shlex.split(value)
    except ValueError:
        # It has an open quote.
        return False
    return [os.path.basename(word) for word in words[:1]] == [SETTINGS[setting][0]]


def install_setting(setting: str, value: str) -> str:
    old = read_setting(setting)
    if old and not _runs_companion(old, setting):
        raise Refused(f"is already `{escape(old)}`; to change it, unset it with git config and run this again")
    run_git("config", "--local", "--replace-all", setting, value)
    return f"is already {escape(value)}" if old == value else f"set to {escape(value)}"


def forbid_cache(setting: str) -> str:
    run_git("config", "--local", "--replace-all", setting, NO_CACHE)
    return f"set to {NO_CACHE}"


def uninstall_setting(setting: str) -> str:
    value = read_setting(setting, "--local")
    if value and (value == NO_CACHE if setting == CACHE else _runs_companion(value, setting)):
        run_git("config", "--local", "--unset-all", setting)
        return "removed"
    return f"left alone, since --install did not set it: {escape(value)}" if value else "not set"

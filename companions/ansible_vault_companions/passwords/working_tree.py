"""Password files in a working tree. Whoever commits the name of an ignored one replaces it, and git does not say so."""

from __future__ import annotations

import os
from contextlib import suppress

from ansible_vault_companions.files import link_bounds
from ansible_vault_companions.quoting import escape
from ansible_vault_companions.refusals import Refused

REPLACEABLE = "it is in the repository {}, where a commit can replace it; move it out, for example to ~/.vault_pass"
TRACKED = "git tracks {}: everybody who has the repository has this password, or can replace it"
NOT_NAMED = "only ./ansible.cfg names this script; to run it, name it with an option or in the environment"


def refuse_within(path: str) -> None:
    """Refuses a password file that is in the repository of the current directory, or to which a link in that leads. A
    directory that is gone is in none."""
    with suppress(FileNotFoundError):
        _refuse_within(path, link_bounds.find_repository(os.getcwd()))


def _refuse_within(path: str, top: str | None) -> None:
    if top and any(link_bounds.is_within(place, top) for place in _list_places(path)):
        raise Refused(REPLACEABLE.format(escape(top)))


def refuse_script(path: str, has_options: bool) -> None:
    """Refuses a script that only ./ansible.cfg names if it is in a repository, or if options name passwords, too: both
    may be a stranger's."""
    if has_options or any(link_bounds.find_repository(os.path.dirname(place)) for place in _list_places(path)):
        raise Refused(NOT_NAMED)


def refuse_tracked(path: str) -> None:
    """Refuses a password file that git tracks, or to which a link leads that git tracks."""
    for place in _list_places(path):
        if _is_tracked(place):
            raise Refused(TRACKED.format(escape(place)))


def _list_places(path: str) -> list[str]:
    """The real paths of a file and of the links on the way to it."""
    target, links = link_bounds.list_links(path)
    return [*links, target]


def _is_tracked(place: str) -> bool:
    """Whether git says that it tracks what is at a real path. There may be no git, or one that does not answer."""
    top = link_bounds.find_repository(os.path.dirname(place))
    if top is None:
        return False
    # Most passwords are in no repository.
    from ansible_vault_companions.git.commands import run_git_command

    try:
        done = run_git_command("ls-files", "--error-unmatch", "--", os.path.relpath(place, top), folder=top)
    except Refused:
        return False
    return done.returncode == 0

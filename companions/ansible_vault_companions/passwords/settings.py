"""Ansible's settings that name passwords: environment variables and `ansible.cfg`.

They count beside options, too. ./ansible.cfg may be a link to a file of another kind, even to a password. So one that
leads out of its repository is refused, and no message quotes a file of settings.
"""

from __future__ import annotations

import os
import stat
from collections.abc import Callable

from ansible_vault_companions.files import link_bounds
from ansible_vault_companions.quoting import escape
from ansible_vault_companions.refusals import Refused, describe_refusal

NAME, CONFIG = "ansible.cfg", "ANSIBLE_CONFIG"
SECTION = "defaults"
# Other places of the file, in the order in which Ansible looks there.
USUAL_PLACES = "~/.ansible.cfg", "/etc/ansible/ansible.cfg"
# For each setting, the environment variable and the key in the file.
IDENTITIES = "ANSIBLE_VAULT_IDENTITY_LIST", "vault_identity_list"
PASSWORD_FILE = "ANSIBLE_VAULT_PASSWORD_FILE", "vault_password_file"
ASK_SETTING = "ANSIBLE_ASK_VAULT_PASS", "ask_vault_pass"
ENCRYPT_IDENTITY = "ANSIBLE_VAULT_ENCRYPT_IDENTITY", "vault_encrypt_identity"
ID_MATCH = "ANSIBLE_VAULT_ID_MATCH", "vault_id_match"
# These, in place of a path, ask for a password.
PROMPT, ASK = "prompt", "prompt_ask_vault_pass"
HOME = "~"
# In a path of the settings, this means the current directory.
CURRENT = "{{CWD}}"
NO_HOME = "~ leads to no home directory; to mean a file of this name, begin with ./"
# Values that Ansible reads as true.
TRUE = ("1", "on", "t", "true", "y", "yes")


def is_absolute(place: str) -> bool:
    """Whether a path leads to the same place, whatever the current directory is, which a variable may name."""
    return os.path.isabs(os.path.expanduser(place))


def expand_path(path: str, folder: str = "") -> str:
    """A path as Ansible reads it. A relative one starts from this directory, or else from the current one. Refuses a
    home directory that there is not: as a relative path, it could be one of a stranger's repository."""
    expanded = os.path.expanduser(os.path.expandvars(path))
    if expanded.startswith(HOME):
        raise Refused(NO_HOME)
    return os.path.join(folder, expanded)


def split_vault_id(text: str) -> tuple[str, str]:
    """The label of [LABEL@]SOURCE, empty if there is none, and the source."""
    label, at, place = text.partition("@")
    return (label, place) if at else ("", text)


class Settings:
    """The values of the settings, or none if they are not to be read. An environment variable overrides the file, even
    if it is empty."""

    def __init__(self, warn: Callable[[str], None], are_read: bool = True) -> None:
        self.warn = warn
        self.are_read = are_read
        self.path = self._find_file() if are_read else None
        self.keys = _read_section(self.path) if self.path else {}

    def list_identities(self) -> list[str]:
        """The sources, as [LABEL@]SOURCE. As with Ansible, relative paths start from the current directory."""
        items = [_unquote(item.strip()) for item in self._read(IDENTITIES).split(",")]
        return [item for item in items if item]

    def find_password_file(self) -> str:
        """The path of the password file; empty if there is none. In a file, it is relative to the file's directory."""
        path = self._read(PASSWORD_FILE)
        folder = "" if PASSWORD_FILE[0] in os.environ or not self.path else os.path.dirname(self.path)
        return _expand_setting(path.replace(CURRENT, link_bounds.find_current_folder()), folder) if path else ""

    def is_asking(self) -> bool:
        """Whether to ask for a password."""
        return _unquote(self._read(ASK_SETTING)).lower() in TRUE

    def find_encrypt_label(self) -> str | None:
        """The label of the password to encrypt with."""
        return _unquote(self._read(ENCRYPT_IDENTITY)) or None

    def requires_match(self) -> bool:
        """Whether a password may decrypt only its own label. As with Ansible, any value means yes, even `false`."""
        return bool(_unquote(self._read(ID_MATCH)))

    def is_of_folder(self, setting: tuple[str, str]) -> bool:
        """Whether ./ansible.cfg has the value of a setting, which a stranger may have committed."""
        return self.path == NAME and setting[0] not in os.environ

    def _read(self, setting: tuple[str, str]) -> str:
        variable, key = setting
        return os.environ.get(variable, self.keys.get(key, "")) if self.are_read else ""

    def _find_file(self) -> str | None:
        """The file that ANSIBLE_CONFIG names, else the first readable one, in Ansible's order of places."""
        named = os.environ.get(CONFIG, "")
        if named:
            path = _expand_setting(named)
            if os.path.isdir(path):
                path = os.path.join(path, NAME)
            # This may be any file, even /dev/null.
            if os.access(path, os.R_OK):
                return path
            self.warn(f"{CONFIG}: {escape(path)} cannot be read; it is ignored")
        places = [os.path.expanduser(place) for place in USUAL_PLACES if is_absolute(place)]
        if os.path.exists(NAME):
            if os.stat(".").st_mode & stat.S_IWOTH:
                self.warn(f"{escape(os.path.abspath(NAME))} is ignored, since its directory is world-writable")
            else:
                _refuse_link_out(NAME)
                places.insert(0, NAME)
        return next((place for place in places if _is_readable(place)), None)


def _expand_setting(path: str, folder: str = "") -> str:
    try:
        return expand_path(path, folder)
    except Refused as fault:
        raise Refused(f"{escape(path)}: {fault}") from None


def _refuse_link_out(path: str) -> None:
    try:
        link_bounds.resolve_file(path)
    except Refused as fault:
        raise Refused(f"{escape(path)}: {fault}") from None


def _read_section(path: str) -> dict[str, str]:
    """The keys and values of a file's section, empty if there is none. Raises Refused if the file cannot be read."""
    # Imported here, since most runs of ansible-vault-with need no file.
    import configparser

    parser = configparser.RawConfigParser(inline_comment_prefixes=(";",))
    try:
        with open(path, encoding="utf-8") as file:
            text = file.read()
        if "\0" in text:
            raise Refused(f"{escape(path)}: it has a NUL byte")
        parser.read_string(text)
    except UnicodeError:
        raise Refused(f"{escape(path)}: it is not UTF-8") from None
    except configparser.Error as fault:
        # Its text quotes the file.
        lines = [number for number, _ in getattr(fault, "errors", [])] or [getattr(fault, "lineno")]
        raise Refused(f"{escape(path)}: line {lines[0]} is no section, or no KEY = VALUE of its own") from None
    except OSError as fault:
        raise Refused(describe_refusal(path, fault)) from None
    return dict(parser[SECTION]) if SECTION in parser else {}


def _unquote(text: str) -> str:
    is_quoted = len(text) > 1 and text[0] == text[-1] and text[0] in "\"'" and text[-2] != "\\"
    return text[1:-1] if is_quoted else text


def _is_readable(path: str) -> bool:
    return os.path.isfile(path) and os.access(path, os.R_OK)

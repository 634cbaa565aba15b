"""Where passwords come from, and how they are asked for: what the command line and Ansible's settings name.

What names a password decides what it may do, here and in the functions of the last column:

                            an option   a setting            only ./ansible.cfg
    is a script that runs   yes         yes                  if no option names one,   refuse_script
                                                             and outside repositories
    encrypts something new  yes         if no option names   as a setting              prefer_options
                                        one, or by its label
    encrypts another text   yes         yes                  if no option names one    require_credential
    is skipped if unusable  no          if another is left   as a setting              read_passwords
"""

from __future__ import annotations

from ansible_vault_companions.envelopes.header import DEFAULT_LABEL
from ansible_vault_companions.limits import MOST_PASSWORDS
from ansible_vault_companions.passwords.settings import ASK, IDENTITIES, PASSWORD_FILE, PROMPT, Settings, split_vault_id
from ansible_vault_companions.refusals import Refused

# The options that ask for a password without a label, and the word for them in place of [LABEL@]SOURCE.
ASK_OPTIONS = ("-J", "--ask-vault-password", "--ask-vault-pass")
ASK_ID = f"{DEFAULT_LABEL}@{ASK}"


class NoAnswer(Refused):
    """There is nobody to ask, or nobody answers."""


class Purpose:
    """What the passwords of a command line are for."""

    def __init__(
        self, encrypts: bool = False, reads_lines: bool = False, ignores_faulty: bool = False, for_git: bool = False
    ) -> None:
        # Whether they are to encrypt, so that each is typed twice.
        self.encrypts = encrypts
        # Whether lines of standard input answer if there is no terminal.
        self.reads_lines = reads_lines
        # Whether those that cannot be used are ignored, even if options name them or no other is left.
        self.ignores_faulty = ignores_faulty
        # Whether git runs the companion, so that the repository has none and, beside an option, names none.
        self.for_git = for_git


class Source:
    """What was written for one password."""

    def __init__(
        self, label: str, place: str, text: str, is_prompt: bool, is_setting: bool, is_of_folder: bool = False
    ) -> None:
        # The label that was written, which a script gets; empty if there is none.
        self.written_label = label
        self.label = label or DEFAULT_LABEL
        # A path as it was written or, for a prompt, PROMPT or ASK.
        self.place = place
        # How messages name it: as it was written.
        self.text = text
        self.is_prompt = is_prompt
        # Whether a setting names it. If it cannot be used, it may be ignored.
        self.is_setting = is_setting
        # Whether only ./ansible.cfg names it, which a stranger may have committed.
        self.is_of_folder = is_of_folder


def parse_vault_id(text: str, is_setting: bool = False, is_of_folder: bool = False) -> Source:
    """The source that [LABEL@]SOURCE names."""
    label, place = split_vault_id(text)
    if place in (PROMPT, ASK):
        return Source(label, place, ASK_OPTIONS[1] if text == ASK_ID else text, is_prompt=True, is_setting=is_setting)
    return Source(label, place, text, is_prompt=False, is_setting=is_setting, is_of_folder=is_of_folder)


def make_path_source(path: str, is_setting: bool = False, is_of_folder: bool = False) -> Source:
    return Source(DEFAULT_LABEL, path, path, is_prompt=False, is_setting=is_setting, is_of_folder=is_of_folder)


def list_sources(ids: list[str], paths: list[str], settings: Settings) -> list[Source]:
    """All sources that options name and, after them, those that settings name."""
    sources = [parse_vault_id(text) for text in ids if text != ASK_ID]
    sources += [make_path_source(path) for path in paths]
    sources += [parse_vault_id(ASK_ID)] if ASK_ID in ids else []
    is_of_folder = settings.is_of_folder(IDENTITIES)
    sources += [parse_vault_id(text, True, is_of_folder) for text in settings.list_identities()]
    path = settings.find_password_file()
    if path:
        sources.append(make_path_source(path, True, settings.is_of_folder(PASSWORD_FILE)))
    if settings.is_asking() and ASK_ID not in ids:
        sources.append(parse_vault_id(ASK_ID, is_setting=True))
    if len(sources) > MOST_PASSWORDS:
        raise Refused(f"{len(sources)} passwords are named, and ansible-vault takes at most {MOST_PASSWORDS}")
    return sources

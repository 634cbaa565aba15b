"""Handles files one after another. After one that fails, others still follow."""

from __future__ import annotations

from functools import partial

from ansible_vault_companions import exit_status, output
from ansible_vault_companions.alias.command_line import DECRYPT, ENCRYPT, NAME, REKEY, STANDARD_INPUT, VIEW
from ansible_vault_companions.alias.output_file import write_output
from ansible_vault_companions.alias.password_choice import Call
from ansible_vault_companions.alias.standard_input import read_standard_input
from ansible_vault_companions.envelopes.header import read_label
from ansible_vault_companions.envelopes.pointers import refuse_pointer
from ansible_vault_companions.files import link_bounds, reading
from ansible_vault_companions.passwords.labels import require_credential
from ansible_vault_companions.passwords.password import Password
from ansible_vault_companions.tool import Tool, find_own


def handle_files(companion: str, call: Call) -> int:
    """Replaces or shows each file. Returns the exit status."""
    tool = find_own(companion, only_shows=call.args.command == VIEW)
    files, paths = Files(tool, call), call.args.arguments or [STANDARD_INPUT]
    statuses: list[int] = []
    with output.Progress(lambda: f"file {len(statuses) + 1:,} of {len(paths):,}") as progress:
        for path in paths:
            # What is shown may end within a line.
            if call.args.command != VIEW:
                progress.show()
            statuses.append(exit_status.attempt_work(NAME, path, partial(files.handle, path)))
    return max(statuses)


class Files:
    """Replaces or shows files, one after another."""

    def __init__(self, tool: Tool, call: Call) -> None:
        self.tool = tool
        self.call = call
        # A newline if the last text that was shown does not end with one.
        self.end = b""

    def handle(self, path: str) -> int:
        """Handles a file, or standard input, and returns the exit status."""
        args = self.call.args
        if args.command == VIEW:
            self._show(self._run(_read(path)))
        elif path == STANDARD_INPUT or args.output is not None:
            return write_output(args, self._run(_read(path)))
        else:
            # Imported here, since to view a file takes no longer than this.
            from ansible_vault_companions.files import replacing

            target = link_bounds.resolve_file(path)
            before = reading.read_existing(target)
            replacing.replace(target, self._run(before), before, is_private=args.command == DECRYPT)
        return 0

    def _show(self, text: bytes) -> None:
        output.write_data(self.end + text)
        self.end = b"\n" if text and not text.endswith(b"\n") else b""

    def _run(self, data: bytes) -> bytes:
        """What the command makes of this. A vault stays as it is if its label forbids the one password that opens it
        to encrypt it again."""
        refuse_pointer(data)
        tool, call = self.tool, self.call

        def encrypt(password: Password) -> bytes:
            return tool.run(call.words([password], "--output"), data, [password, *call.new], call.new_label)

        if call.args.command == ENCRYPT:
            return encrypt(*call.passwords)
        if call.args.command != REKEY:
            return tool.decrypt(data, call.passwords, call.policy).plaintext
        password, envelope = tool.try_passwords(data, call.passwords, call.policy, encrypt)
        require_credential(password, read_label(data) or "", call.policy, is_same_text=True)
        return envelope


def _read(path: str) -> bytes:
    return read_standard_input() if path == STANDARD_INPUT else reading.read_input(link_bounds.resolve_to_read(path))

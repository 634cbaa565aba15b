"""The first line of whatever is shown of a file says what is encrypted.

Without it, `git diff` would not show that a vault or a value was decrypted, if its text and its tag stay, or got
another label; and a file whose text begins like such a line could pass for another kind.
"""

from __future__ import annotations

from ansible_vault_companions.quoting import escape

NOTHING = b"# ansible-vault: not encrypted\n"
# What follows is the file as it is, which may be encrypted.
AS_IT_IS = b"# ansible-vault: not decrypted\n"


def describe_vault(label: str) -> bytes:
    return f"# ansible-vault: encrypted, label {escape(label)}\n".encode()


def describe_values(count: int) -> bytes:
    return f"# ansible-vault: encrypted values: {count}\n".encode()

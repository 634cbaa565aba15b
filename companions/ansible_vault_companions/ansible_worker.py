"""Runs in the Python of Ansible's ansible-vault, where Ansible's own module encrypts and decrypts.

`ansible_tool` starts it, and says what its lines mean. This Python may be as old as 3.5.
"""

import json
import sys


def main() -> None:
    # Beside this file are the companions' modules, and not Ansible's.
    del sys.path[0]
    for line in sys.stdin:
        try:
            answer = ["", handle(*json.loads(line))]
        except Exception as fault:
            answer = [type(fault).__name__, str(fault)]
        print(json.dumps(answer), flush=True)


def handle(command: str, label: str, password: str, data: str) -> str:
    """The version, the plaintext of an envelope, or an envelope. A character stands for each byte."""
    from ansible.config import manager

    # No ansible.cfg counts, not even the user's: it could name the salt.
    manager.find_ini_config_file = lambda *_: None
    from ansible.parsing import vault
    from ansible.release import __version__

    if command == "version":
        return str(__version__)
    secret = vault.VaultSecret(password.encode("latin-1"))
    tool, content = vault.VaultLib([(label, secret)]), data.encode("latin-1")
    done = tool.decrypt(content) if command == "view" else tool.encrypt(content, secret, vault_id=label)
    return str(done, "latin-1")


if __name__ == "__main__":
    main()

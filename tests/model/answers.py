"""Compute the tool's answer from its rules alone, without any code of the program.

The steps have the numbers of "A run, in order" in docs/verification-reference.md. A step that refuses raises `Refused`.
"""

from collections.abc import Mapping
from typing import NamedTuple

from model.faults import Fault, Refused, refuse_if
from model.formats import SALT_LENGTH, Secret, choose_secret, decrypt_envelope, password_in, seal_plaintext
from model.options import NotParsed, Request, request_of
from model.vaults import PLAINTEXT_LIMIT, yaml_block

# The contents of the files by path. A directory, with None, can be opened, but not read.
Files = Mapping[str, bytes | None]


class Answer(NamedTuple):
    """The output (None if it is never begun), its path (None for standard output), the text on standard error (None if
    it is the parser's), and the status."""

    output: bytes | None
    path: str | None
    message: bytes | None
    status: int


def opened(files: Files, path: str, fault: Fault) -> bytes | None:
    if path not in files:
        raise Refused(fault)
    return files[path]


def read(content: bytes | None, fault: Fault) -> bytes:
    if content is None:
        raise Refused(fault)
    return content


def read_passwords(request: Request, files: Files) -> list[bytes]:
    """Return the contents of the password files, that of the new one last."""
    contents = []
    for secret in request.secrets + request.new_secrets:
        content = opened(files, secret.path, Fault.SECRET_NOT_OPENED)
        contents.append(read(content, Fault.SECRET_NOT_READ))
    return contents


def read_salt(request: Request, files: Files) -> bytes:
    if request.salt_path is None:
        return (request.salt_text or "").encode()
    return read(opened(files, request.salt_path, Fault.SALT_NOT_OPENED), Fault.SALT_NOT_READ)


def open_input(request: Request, files: Files, stdin: bytes) -> bytes | None:
    if request.positional is None:
        return stdin
    if request.command == "encrypt_string":
        return request.positional.encode()
    return opened(files, request.positional, Fault.INPUT_NOT_OPENED)


def performed(request: Request, files: Files, stdin: bytes) -> bytes:
    """Return the output."""
    is_encrypting = request.command in ("encrypt", "encrypt_string")
    # 6. Password files.
    contents = read_passwords(request, files)
    # 7. The salt file.
    salt = read_salt(request, files)
    # 8. FILE is opened.
    given = open_input(request, files, stdin)
    # 9. Passwords.
    passwords = [password_in(content) for content in contents]
    secrets = [Secret(file.label, password) for file, password in zip(request.secrets, passwords)]
    # 10. The password to encrypt with.
    secret = None
    if is_encrypting:
        secret = choose_secret(secrets, request.choice)
    elif request.command == "rekey":
        secret = Secret(request.new_secrets[0].label, passwords[-1])
    # 11. The salt.
    if request.salt_path is not None:
        refuse_if(len(salt) < SALT_LENGTH, Fault.SALT_SHORT)
        salt = salt[:SALT_LENGTH]
    # 12. The input.
    text = read(given, Fault.INPUT_NOT_READ)
    # 13. Its length, which for an envelope is the first condition of reading.
    refuse_if(is_encrypting and len(text) > PLAINTEXT_LIMIT, Fault.TOO_LONG)
    # 14. The command.
    refuse_if(request.command == "encrypt_string" and text == b"", Fault.EMPTY_STRING)
    plaintext = text if is_encrypting else decrypt_envelope(secrets, request.label_required, text)
    if secret is None:
        return plaintext
    envelope = seal_plaintext(secret, salt, plaintext)
    if request.command == "encrypt_string":
        return yaml_block(envelope, request.name.encode())
    return envelope


def refusal(fault: Fault) -> Answer:
    return Answer(None, None, fault.line, fault.status)


def answer(words: list[str], files: Files, stdin: bytes) -> Answer:
    """Return the answer to the words after the program's name, provided that the output can be written."""
    try:
        request = request_of(words)
        return Answer(performed(request, files, stdin), request.output, b"", 0)
    except NotParsed:
        return Answer(None, None, None, 2)
    except Refused as refused:
        return refusal(refused.fault)

"""The tool's faults, with the line that each prints and its exit status."""

from enum import Enum


class Fault(Enum):
    """The text of each fault, and its status if that is not 1."""

    TOO_LONG = "input is longer than the limit"
    NOT_VAULT = "input is not vault encrypted data"
    HEADER_TOO_LONG = "vault header line is longer than 256 bytes"
    BAD_HEADER = "vault header line is malformed"
    BAD_VERSION = "vault format version is not supported"
    BAD_CIPHER = "vault cipher is not supported"
    BAD_HEX = "vault body is not hexadecimal"
    BAD_PAYLOAD = "vault payload is malformed"
    CIPHER_TOO_LONG = "vault ciphertext is longer than the limit"
    SECRET_TOO_LONG = "a password file is longer than 4096 bytes"
    SECRET_IS_SCRIPT = "a password file is a script"
    SECRET_IS_VAULT = "a password file is itself a vault"
    SECRET_EMPTY = "a password is empty"
    TOO_MANY_SECRETS = "more than 16 secrets were given"
    NO_ENCRYPT_SECRET = "no secret was given to encrypt with"
    MANY_ENCRYPT_SECRETS = "several secrets were given; choose one with --encrypt-vault-id"
    UNKNOWN_ENCRYPT_ID = "no secret has the label of --encrypt-vault-id"
    EMPTY_STRING = "the string to encrypt is empty"
    ALREADY_VAULT = "the plaintext is already vault encrypted data"
    NO_SECRET_FITS = "no secret decrypts this vault"
    BAD_PADDING = "the padding of the decrypted data is wrong"
    BAD_LABEL = "a vault id label is not allowed"
    BAD_NAME = "a variable name holds a control byte"
    NAME_MISMATCH = "the name option does not fit where the string comes from"
    PROMPT_SOURCE = "asking for a password is not supported"
    NEED_NEW_SECRET = "exactly one new secret is needed"
    OUTPUT_NEEDED = "--output is needed with an input file"
    INPUT_NOT_READ = "the input cannot be read", 3
    SECRET_NOT_READ = "a password file cannot be read", 3
    SALT_NOT_READ = "the salt file cannot be read", 3
    NOT_WRITTEN = "the output cannot be written", 3
    SALT_SHORT = "the salt has fewer than 32 bytes"
    INPUT_NOT_OPENED = "the input file cannot be opened", 3
    SECRET_NOT_OPENED = "a password file cannot be opened", 3
    SALT_NOT_OPENED = "the salt file cannot be opened", 3
    MEMORY = "out of memory", 4
    SALT_CHOICE = "--salt and --salt-file exclude each other"
    BAD_SALT = "a salt text must have 1 to 64 bytes"

    def __init__(self, text: str, status: int = 1) -> None:
        self.line = f"ERROR! {text}\n".encode()
        self.status = status


class Refused(Exception):
    """A step of the specification refuses."""

    def __init__(self, fault: Fault) -> None:
        super().__init__(fault.name)
        self.fault = fault


def refuse_if(condition: bool, fault: Fault) -> None:
    if condition:
        raise Refused(fault)

"""The limits of ansible-vault itself, which its companions share."""

from __future__ import annotations

# The bytes of the longest plaintext, and of the longest vault. Of longer files, even endless ones as in /proc, no more
# is read.
LONGEST_PLAINTEXT = 16_777_216
LONGEST_VAULT = 6 * LONGEST_PLAINTEXT + 8_192
# The passwords that the tool takes, and the bytes of a password file and the characters of a label.
MOST_PASSWORDS = 16
LONGEST_PASSWORD = 4_096
LONGEST_LABEL = 128

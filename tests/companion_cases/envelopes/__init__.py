"""Tests of the envelopes of ansible-vault-companions(7) and ansible-vault-rotate(1), and of key paths."""

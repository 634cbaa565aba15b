"""Tests of ansible-vault-companions(7): passwords, labels and untrusted directories."""

"""Tests of ansible-vault-edit(1)."""

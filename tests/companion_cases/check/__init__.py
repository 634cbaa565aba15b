"""Tests of ansible-vault-check(1)."""

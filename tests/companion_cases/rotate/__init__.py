"""Tests of ansible-vault-rotate(1)."""

"""Tests of ansible-vault-merge(1)."""

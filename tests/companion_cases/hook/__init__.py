"""Tests of ansible-vault-hook(1)."""

"""Tests of ansible-vault-textconv(1), and --value of ansible-vault-edit(1)."""

"""Tests of ansible-vault-with(1), and what docs/coming-from-ansible.md says of it."""

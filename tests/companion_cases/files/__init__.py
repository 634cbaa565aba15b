"""Tests of ansible-vault-companions(7): links, which files are searched, and replaced files."""

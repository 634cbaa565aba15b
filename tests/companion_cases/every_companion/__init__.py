"""Tests of ansible-vault-companions(7): what else holds for all companions, such as time, memory and environment."""

"""Tests of the program, by topic."""

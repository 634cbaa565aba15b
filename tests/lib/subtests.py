"""The type of the fixture `subtests`, from pytest 9 or the plugin pytest-subtests."""

from contextlib import AbstractContextManager
from typing import Protocol


class SubTests(Protocol):
    def test(self, msg: str) -> AbstractContextManager[None]:
        """Run one row of a test. If it fails, the test fails, but goes on."""

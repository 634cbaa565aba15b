"""The mode of the output: a new file, an existing one, links, devices. `faults.py` has modes that cannot be changed."""

import os
import stat
from pathlib import Path

import pytest

from lib.cases import OLD, Answer, Cases, answer_of
from lib.samples import Sample, each_to_output, sample_of


def mode(path: str) -> str:
    return oct(stat.S_IMODE(os.stat(path).st_mode))


def check_written(cases: Cases, umask: int, sample: Sample, path: str, wanted: int) -> None:
    done = cases.done([*sample.words, "--output", path], sample.stdin, umask=umask)
    assert answer_of(done) == Answer(0, b"", b""), "nothing is printed"
    assert Path(path).read_bytes() == sample.output, "the output"
    assert mode(path) == oct(wanted), "its mode"


@pytest.mark.parametrize("umask", (0, 0o077, 0o277))
@each_to_output
def test_new_files(cases: Cases, command: str, umask: int) -> None:
    """The umask restricts the mode, except for plaintext, whose mode is set explicitly."""
    sample, wanted = sample_of(cases, command), 0o400 if umask == 0o277 and command != "decrypt" else 0o600
    target, link = cases.path(), cases.path()
    os.symlink(target, link)
    for path in (cases.path(), link):
        check_written(cases, umask, sample, path, wanted)


@pytest.mark.parametrize("umask", (0, 0o077))
@each_to_output
def test_old_files(cases: Cases, command: str, umask: int) -> None:
    """By name; through a link, which stays; and by one of two names, which both stay. Plaintext is for its owner."""
    sample = sample_of(cases, command)
    for old in (0o600, 0o644, 0o666, 0o755):
        target = cases.file(OLD, old)
        link = cases.path()
        twin = cases.path()
        os.symlink(target, link)
        os.link(target, twin)
        for path in (target, link, twin):
            Path(target).write_bytes(OLD)
            Path(target).chmod(old)
            check_written(cases, umask, sample, path, 0o600 if command == "decrypt" else old)
        assert os.readlink(link) == target, "the link stays"
        assert os.stat(twin).st_nlink == 2, "both names stay"


@each_to_output
def test_devices(cases: Cases, command: str) -> None:
    sample, path = sample_of(cases, command), cases.device("null")
    done = cases.done([*sample.words, "--output", path], sample.stdin)
    assert answer_of(done) == Answer(0, b"", b""), "nothing is printed"
    assert mode(path) == oct(0o666), "the device's mode stays"

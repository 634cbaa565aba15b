"""Streams in other states: a pipe that gives few bytes or loses its reader, and a full device.

`closed_streams.py` has closed ones. `with_strace.py` shows that a run does not ask what a stream is.
"""

import os

from lib.cases import Cases, answer_of
from lib.needs import needs
from lib.processes import run
from lib.samples import each_command, sample_of
from model.faults import Fault


@each_command
def test_short_reads(cases: Cases, command: str) -> None:
    """Each read gets a packet of a few bytes."""
    sample, (reader, writer) = sample_of(cases, command), os.pipe2(os.O_DIRECT)
    step = len(sample.stdin) // 8 + 1
    for start in range(0, len(sample.stdin), step):
        os.write(writer, sample.stdin[start : start + step])
    os.close(writer)
    done = cases.done(sample.words, reader)
    os.close(reader)
    assert answer_of(done) == (0, sample.output, b"")


@each_command
def test_leaving_reader(cases: Cases, command: str) -> None:
    """The reader of the output leaves after its first byte."""
    needs("bash")
    sample = sample_of(cases, command, bytes(1 << 20))
    to_reader = ["bash", "-c", '"$@" | head -c 1; exit "${PIPESTATUS[0]}"', "bash"]
    done = run([*to_reader, cases.program, *sample.words], sample.stdin)
    assert answer_of(done) == (3, sample.output[:1], Fault.NOT_WRITTEN.line)


@each_command
def test_full_standard_output(cases: Cases, command: str) -> None:
    sample, fault = sample_of(cases, command), Fault.NOT_WRITTEN
    with open("/dev/full", "wb") as full:
        done = cases.done(sample.words, sample.stdin, stdout=full)
    assert done.returncode == fault.status, "the status"
    assert done.stderr == fault.line, "the message"

"""Run Ansible's ansible-vault many times: import it once, and fork for each run.

Run by Ansible's own Python, with the path of the tool, this script reads requests as lines of JSON and writes their
results. `AnsibleRuns` starts it and talks to it.
"""

import importlib
import json
import os
import runpy
import sys
import tempfile
from pathlib import Path
from subprocess import PIPE, Popen
from typing import Any, NamedTuple

# The status of a run that an exception has ended.
FAILED = 250


class AnsibleRun(NamedTuple):
    """What is left of a run."""

    status: int
    output: bytes
    errors: str


class AnsibleRuns:
    """A process that has imported Ansible's tool and waits for command lines."""

    def __init__(self, ansible: str, home: Path) -> None:
        """Start the process. `home` is an empty directory, so Ansible finds no settings there."""
        first_line, _, _ = Path(ansible).resolve().read_bytes().partition(b"\n")
        interpreter = first_line.decode().removeprefix("#!").split()
        environment = {"HOME": str(home), "PATH": os.environ["PATH"], "LC_ALL": "C.UTF-8"}
        words = [*interpreter, "-B", __file__, ansible]
        self.process = Popen(words, env=environment, cwd=home, text=True, stdin=PIPE, stdout=PIPE)
        assert self.process.stdin and self.process.stdout
        self.requests, self.answers = self.process.stdin, self.process.stdout

    def __enter__(self) -> "AnsibleRuns":
        return self

    def __exit__(self, *_fault: object) -> None:
        self.requests.close()
        self.process.wait()

    def run(self, words: list[str], folder: Path, environment: dict[str, str]) -> AnsibleRun:
        request = {"words": words, "folder": str(folder), "environment": environment}
        self.requests.write(f"{json.dumps(request)}\n")
        self.requests.flush()
        left = json.loads(self.answers.readline())
        return AnsibleRun(left["status"], left["output"].encode("latin-1"), left["errors"])


def use_settings(environment: dict[str, str]) -> None:
    """Read the tool's settings again, because Ansible reads them only on import."""
    from ansible import constants
    from ansible.config.manager import find_ini_config_file

    os.environ.clear()
    os.environ.update(environment)
    config = constants.config
    config._config_file = find_ini_config_file(config.WARNINGS)
    config._parsers = {}
    if config._config_file:
        config._parse_config_file()
    for name in (each for each in config.get_configuration_definitions() if "VAULT" in each):
        constants.set_constant(name, config.get_config_value(name, variables=vars(constants)))


def run_in_child(output: int, errors: int, words: list[str], folder: str, environment: dict[str, str]) -> None:
    """Become the tool, with these descriptors for its streams, and end as it does."""
    status = FAILED
    try:
        os.setsid()
        os.chdir(folder)
        for number, stream in enumerate((os.open(os.devnull, os.O_RDONLY), output, errors)):
            os.dup2(stream, number)
        sys.stdin, sys.stdout = open(0), open(1, "w")
        use_settings(environment)
        sys.argv[1:] = words
        runpy.run_path(sys.argv[0], run_name="__main__")
        status = 0
    except SystemExit as end:
        status = int(end.code or 0)
    finally:
        sys.stdout.flush()
        sys.stderr.flush()
        os._exit(status)


def answer(request: dict[str, Any]) -> dict[str, Any]:
    """Run the tool in a child. Its output may have any bytes, which JSON has as characters."""
    with tempfile.TemporaryFile() as output, tempfile.TemporaryFile() as errors:
        child = os.fork()
        if not child:
            run_in_child(output.fileno(), errors.fileno(), **request)
        status = os.waitstatus_to_exitcode(os.waitpid(child, 0)[1])
        output.seek(0)
        errors.seek(0)
        return {
            "status": status,
            "output": output.read().decode("latin-1"),
            "errors": errors.read().decode(errors="replace"),
        }


def main() -> None:
    replies = os.fdopen(os.dup(1), "w")
    # Remove this file's directory, which contains another module named `ansible`.
    sys.path.pop(0)
    # The tool takes the place of this script.
    sys.argv.pop(0)
    importlib.import_module("ansible.cli.vault")
    for line in sys.stdin:
        replies.write(f"{json.dumps(answer(json.loads(line)))}\n")
        replies.flush()


if __name__ == "__main__":
    main()

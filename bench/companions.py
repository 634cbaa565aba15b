#!/usr/bin/env -S python3 -B
"""Time what ansible-vault-check, ansible-vault-textconv and ansible-vault-rotate add to the runs of the program.

Usage: companions.py PROGRAM [--vaults N] [--runs N] [--quick]

The bare runs view as many vaults, one on each processor at a time. A rotation is compared with twice their time, since
it decrypts and encrypts; it also syncs each file. All are run in turn. No two vaults are equal, since equal ones are
decrypted once. Ansible's tool views and rekeys the same vaults, in one run each. docs/compare.md has figures of the
table.
"""

import os
import subprocess
import sys
import tempfile
from pathlib import Path
from statistics import median

ROOT = Path(__file__).resolve().parent.parent
sys.path[:0] = [str(ROOT / "tests"), str(ROOT / "companions")]

from lib.ansible import ansible_vault
from measured import CLOCK, PROCESSOR, Task, Times, describe_processor, measure_in_turn, options, spread
from model.vaults import seal, yaml_block

PASSWORDS = {"old": b"the old password", "new": b"the new password"}
BARE = "bare runs"
# How often the time of the bare runs each companion may take; and as a multiple of theirs, what is compared.
MOST = {"check": 1.15, "textconv": 1.15, "rotate": 1.4}
RUNS_EACH = {"check": 1, "textconv": 1, "rotate": 2}
# What Ansible's tool does in place of a companion.
THEIRS = {"check": "view", "rotate": "rekey"}


class Vaults:
    """A directory of vaults, the same vaults as the blocks of one file, and password files."""

    def __init__(self, folder: Path, program: Path, count: int) -> None:
        self.folder, self.program = folder, program.resolve()
        salts = [number.to_bytes(32, "big") for number in range(count)]
        vaults = [seal(PASSWORDS["old"], b"text %d\n" % number, salt=salt) for number, salt in enumerate(salts)]
        (folder / "vaults").mkdir()
        self.vaults = {folder / "vaults" / f"{number}.yml": vault for number, vault in enumerate(vaults)}
        blocks = (yaml_block(vault, b"n%d" % number) for number, vault in enumerate(vaults))
        (folder / "blocks.yml").write_bytes(b"".join(blocks))
        for name, password in PASSWORDS.items():
            (folder / name).write_bytes(password)
        (folder / "ansible-vault").symlink_to(self.program)
        for name in MOST:
            (folder / f"ansible-vault-{name}").symlink_to(ROOT / "companions" / f"ansible-vault-{name}")
        self.write()

    def write(self) -> None:
        for path, vault in self.vaults.items():
            path.write_bytes(vault)
        subprocess.run(["sync"], check=True)

    def tasks(self) -> dict[str, Task]:
        old, new = f"--vault-password-file={self.folder}/old", f"--new-vault-password-file={self.folder}/new"
        count, files = len(self.vaults), " ".join(map(str, self.vaults))
        processors = len(os.sched_getaffinity(0))
        view = f"printf '%s\\n' {files} | xargs -P {processors} -n 1 {self.program} view {old}"

        def task(name: str, *words: str, says: bytes) -> Task:
            return Task([str(self.folder / f"ansible-vault-{name}"), old, *words], b"", lambda shown: says in shown)

        folder, blocks = str(self.folder / "vaults"), str(self.folder / "blocks.yml")
        rotate = task("rotate", new, folder, says=b"%d rotated" % count)
        rotate.prepare = self.write
        has_all = lambda shown: shown.count(b"text") == count
        tasks = {
            BARE: Task(["sh", "-c", view], b"", has_all, self.write),
            "check": task("check", folder, says=b"%d decrypted" % count),
            "textconv": task("textconv", blocks, says=b"text %d\n" % (count - 1)),
            "rotate": rotate,
        }
        ansible = ansible_vault()
        if ansible is not None:
            tasks["view"] = Task([ansible, "view", old, *map(str, self.vaults)], b"", has_all, self.write)
            rekey = [ansible, "rekey", old, new, *map(str, self.vaults)]
            tasks["rekey"] = Task(rekey, b"", lambda _: True, self.write)
        return tasks


def ratio(times: dict[str, Times], name: str, kind: str) -> float:
    """Return the median ratio of one round. A machine that is busy slows down both."""
    pairs = zip(times[name].of(kind), times[BARE].of(kind))
    return median(time / bare for time, bare in pairs) / RUNS_EACH[name]


def print_table(times: dict[str, Times], count: int) -> None:
    """Print the table from which docs/compare.md has its figures: many vaults in one run."""
    print(f"\nOn {len(os.sched_getaffinity(0))} processors, {describe_processor()}:\n")
    print("| | companion | its CPU time | Ansible's tool | its CPU time |\n|---|---|---|---|---|")
    for ours, theirs in THEIRS.items():
        if theirs in times:
            took = [times[name].of(kind) for name in (ours, theirs) for kind in (CLOCK, PROCESSOR)]
            cells = [spread([time / 1000 for time in each]).shown(" s") for each in took]
            print("|", " | ".join([f"`ansible-vault-{ours}`, {count} vaults; `{theirs}`", *cells]), "|")


def main() -> None:
    parser = options(__doc__)
    parser.add_argument("program", type=Path)
    parser.add_argument("--vaults", type=int, default=200, metavar="N", help="how many vaults, and values of a file")
    parser.add_argument("--runs", type=int, default=5, metavar="N")
    args = parser.parse_args()
    if args.quick:
        args.vaults, args.runs = 8, 1
    with tempfile.TemporaryDirectory() as folder:
        times = measure_in_turn(Vaults(Path(folder), args.program, args.vaults).tasks(), args.runs)
    for name, each in times.items():
        if name in THEIRS.values():
            continue
        figures = f"{spread([time / 1000 for time in each.clock]).shown(' s')}, {each.memory:.0f} MiB"
        if name != BARE:
            clock, processor = (ratio(times, name, kind) for kind in (CLOCK, PROCESSOR))
            what = f"{BARE}{' twice' if RUNS_EACH[name] == 2 else ''}"
            figures += f": {clock:.2f} times {what} (at most {MOST[name]}), {processor:.2f} of their processor time"
        print(f"{args.vaults} vaults, {name}: {figures}")
    print_table(times, args.vaults)


if __name__ == "__main__":
    main()

#!/usr/bin/env -S /usr/bin/python3 -B
"""Draw the processor time of `view` against the size of the plaintext, as `commands.py` measured it.

Usage: chart.py FILE.svg, with the points as JSON on standard input.
"""

import json
import sys
from typing import Any

try:
    import matplotlib
except ImportError:
    sys.exit("chart.py needs matplotlib: apt-get install python3-matplotlib")

matplotlib.use("svg")
# Make the same numbers give the same file.
matplotlib.rcParams["svg.hashsalt"] = "ansible-vault"

from matplotlib import pyplot

Point = dict[str, Any]

# The tools, and what takes the time where their lines are flat.
NAMES = {
    "theirs": "Ansible's tool (flat: start-up)",
    "the alias": "this tool via the alias (flat: Python's start-up, deriving the keys)",
    "ours": "this tool (flat: deriving the keys)",
}
UNITS = [(1 << 20, "MiB"), (1 << 10, "KiB"), (1, "B")]
# The possible ticks of a logarithmic axis.
TICKS = [digit * 10**power for power in range(6) for digit in (1, 2, 5)]


def size_name(size: int) -> str:
    unit, name = next((unit, name) for unit, name in UNITS if size >= unit)
    return f"{size // unit} {name}"


def ticks_around(values: list[float]) -> list[int]:
    """Return the ticks from the last one below all values to the first one above them."""
    low = max((tick for tick in TICKS if tick < min(values)), default=TICKS[0])
    high = min((tick for tick in TICKS if tick > max(values)), default=TICKS[-1])
    return [tick for tick in TICKS if low <= tick <= high]


def draw(axes: Any, points: list[Point]) -> None:
    for tool, name in NAMES.items():
        mine = [point for point in points if point["tool"] == tool]
        if mine:
            times = [point["milliseconds"] for point in mine]
            axes.plot([point["size"] for point in mine], times, marker="o", label=name)
    sizes = sorted({point["size"] for point in points})
    ticks = ticks_around([point["milliseconds"] for point in points])
    axes.set_xscale("log", base=2)
    axes.set_yscale("log")
    axes.set_xticks(sizes, [size_name(size) for size in sizes], rotation=45)
    axes.set_yticks(ticks, [f"{tick:,}" for tick in ticks])
    axes.set_ylim(ticks[0], ticks[-1])
    axes.minorticks_off()
    axes.set_title("CPU time of view: lower is better (both scales are logarithmic)", pad=62)
    axes.set_xlabel("size of the plaintext")
    axes.set_ylabel("milliseconds")
    axes.grid(True, alpha=0.3)
    # Above the lines, which may be anywhere.
    axes.legend(loc="lower center", bbox_to_anchor=(0.5, 1), frameon=False)


def main() -> None:
    figure, axes = pyplot.subplots(figsize=(6.4, 5.4))
    draw(axes, json.load(sys.stdin))
    figure.tight_layout()
    figure.savefig(sys.argv[1], metadata={"Date": None})


if __name__ == "__main__":
    main()

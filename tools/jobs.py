#!/usr/bin/env python3
"""Tells how many checks of crates can run side by side on this machine, as .ci/run and tools/mutants use it.

usage: tools/jobs.py

That is one for each processor that this process may run on (under its control group's quota too), but no more than the free
memory (under the group's limit too) holds at 6.5 GB each and 1 GB more for the largest; and at least one. So much the checks of
crates here were seen to take with the kit rattle-kit-13b: that of try_runs with its tests 7.2 GB, of skew_cli 6.5, of rv_cli 6.2, of
own_judge 5.9, of rvdyn_c 5.6, each other one 5.4 or less. With rattle-kit-13f the first took 5.1, and programs 3.6 or less.
"""
from __future__ import annotations

import os
import re
import sys
from pathlib import Path

from ending import end

# What one check holds of memory, in bytes, and what the largest ones hold beyond that.
OF_ONE = 6_500_000_000
OF_LARGEST = 1_000_000_000
GROUP = Path("/sys/fs/cgroup")


def number(path: Path, pattern: str) -> int | None:
    """The number that the pattern finds in a file, None where there is no such file or number."""
    try:
        found = re.search(pattern, path.read_text(encoding="utf-8"), re.M)
    except OSError:
        return None
    return int(found[1]) if found else None


def processors(group: Path = GROUP) -> int:
    """The processors that this process may use: those that it may run on, or fewer by the quota of its control group."""
    found = len(os.sched_getaffinity(0))
    quota, period = number(group / "cpu.max", r"^(\d+)"), number(group / "cpu.max", r" (\d+)")
    return min(found, max(quota // period, 1)) if quota and period else found


def free(group: Path = GROUP, memory: Path = Path("/proc/meminfo")) -> int:
    """The free memory in bytes, under the limit of the control group too."""
    found = 1024 * (number(memory, r"^MemAvailable:\s+(\d+)") or 0)
    limit, held = number(group / "memory.max", r"^(\d+)"), number(group / "memory.stat", r"^anon (\d+)")
    return found if limit is None or held is None else min(found, limit - held)


def jobs(of_processors: int, of_memory: int) -> int:
    """How many checks run side by side on so many processors in so much free memory."""
    return max(1, min(of_processors, (of_memory - OF_LARGEST) // OF_ONE))


def main() -> int:
    if sys.argv[1:]:
        print(__doc__, end="")
        return 0 if sys.argv[1:] in (["--help"], ["-h"]) else 2
    print(jobs(processors(), free()))
    return 0


if __name__ == "__main__":
    end(main)

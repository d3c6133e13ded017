#!/usr/bin/env python3
"""Times the plan of the islands of two million branches over 200 MB of code: `island_speed.py [RUNS]`.

A million functions of 200 bytes have two branches each, most of which go to one of the thousand functions around. A hundred
thousand of them go 140 MB farther. Prints the least and the median milliseconds of `islands::plan` where branches reach
134,217,728 bytes, as those of instructions do, and 1 MiB; and where none of them goes far, the nanoseconds a branch.
`speed_calls.py` says how the program is built.
"""
import statistics
import subprocess
import sys

from speed_calls import command

FUNCTIONS, FAR = 1_000_000, 100_000


def run(each, reach):
    """The microseconds of a plan, and how many islands it has and branches go by one."""
    done = subprocess.run(command("islands", FUNCTIONS, each, reach), capture_output=True, text=True, check=True)
    areas, islands, branches = (int(part.split()[0]) for part in done.stdout.split(","))
    return int(done.stderr), islands, branches


def main(runs):
    for reach in (134_217_728, 1 << 20):
        timed, islands, branches = zip(*[run(6, reach) for _ in range(runs)])
        if set(islands) != {FAR} or set(branches) != {FAR}:
            sys.exit(f"reach {reach}: {islands[0]} islands, {branches[0]} branches go by one")
        print(f"reach {reach}: {min(timed) / 1e3:.0f} ms, median {statistics.median(timed) / 1e3:.0f} ms")
    timed, islands, _ = zip(*[run(0, 134_217_728) for _ in range(runs)])
    if set(islands) != {0}:
        sys.exit(f"none goes far: {islands[0]} islands")
    print(f"none goes far: {min(timed) * 1e3 / (2 * FUNCTIONS):.0f} ns a branch")


if __name__ == "__main__":
    main(int(sys.argv[1]) if len(sys.argv) > 1 else 5)

#!/usr/bin/env python3
"""Times the writing of fields: `patch_speed.py [RUNS]`.

A million references in 250,000 atoms, of 50 MB together: a quarter each branches, pages, offsets in pages and pointers.
Prints the least and the median milliseconds of a copy of the atoms' bytes alone, of `patch::patch_range`, and of a pass
that writes without asking first whether all values fit; and what of `patch_range` is beyond the copy, and how many times
the one pass it takes, by the least of each. `speed_calls.py` says how the program is built.
"""
import statistics
import subprocess
import sys

from speed_calls import command

ATOMS = 250_000


def run():
    done = subprocess.run(command("patch", ATOMS), capture_output=True, text=True, check=True)
    return [int(word) / 1000 for word in done.stderr.split()]


def main(runs):
    times = list(zip(*(run() for _ in range(runs))))
    for name, column in zip(("copy", "patch_range", "one pass"), times):
        print(f"{name}: {min(column):.1f} ms, median {statistics.median(column):.1f} ms")
    copy, patched, once = map(min, times)
    print(f"beyond the copy: {patched - copy:.1f} ms; {patched / once:.2f} times one pass")


if __name__ == "__main__":
    main(int(sys.argv[1]) if len(sys.argv) > 1 else 15)

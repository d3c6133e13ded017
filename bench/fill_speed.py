#!/usr/bin/env python3
"""Times the writing of 50 MB of atoms into an image by workers: `fill_speed.py [RUNS]`.

Runs 2^20 atoms of 48 bytes with a branch each, with 1, 2 and 4 workers. Prints for each the median of the call alone,
and how many times as fast it was as with one worker. `speed_calls.py` says how the program is built.
"""
import statistics
import subprocess
import sys

from speed_calls import command

ATOMS = 1 << 20


def run(workers):
    """The microseconds of the call, and what the program printed."""
    done = subprocess.run(command("fill", workers, ATOMS), capture_output=True, text=True, check=True)
    return int(done.stderr), done.stdout


def main(runs):
    alone, sums = None, set()
    for workers in (1, 2, 4):
        timed = [run(workers) for _ in range(runs)]
        took = statistics.median(one[0] for one in timed)
        sums |= {one[1] for one in timed}
        alone = alone or took
        print(f"{workers} workers: {took / 1e3:.1f} ms, {alone / took:.2f} times as fast")
    if len(sums) != 1:
        sys.exit("the sums differ")


if __name__ == "__main__":
    main(int(sys.argv[1]) if len(sys.argv) > 1 else 9)

#!/usr/bin/env python3
"""Times the making of a large input: `generate_speed.py [RUNS]`.

All 313 objects of an input of 20,000 functions, of 2.4 MB together, are made by `link_gen::generate` and kept. Prints the
least and the median milliseconds. `speed_calls.py` says how the program is built.
"""
import statistics
import subprocess
import sys

from speed_calls import command

FUNCTIONS = 20_000


def run():
    done = subprocess.run(command("generate", FUNCTIONS), capture_output=True, text=True, check=True)
    return int(done.stderr) / 1000


def main(runs):
    times = [run() for _ in range(runs)]
    print(f"{FUNCTIONS:,} functions: {min(times):.1f} ms, median {statistics.median(times):.1f} ms")


if __name__ == "__main__":
    main(int(sys.argv[1]) if len(sys.argv) > 1 else 15)

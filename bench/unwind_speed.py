#!/usr/bin/env python3
"""Times the unwinding of a million functions with 300 encodings: `unwind_speed.py [RUNS]`.

Each encoding in turn is that of 1, 2, 4 or 1,000 functions in a row, which makes regular pages, and compressed ones of
few and of many rows. A third of the functions end before the next one begins, and a fourth have a personality and data.
Prints for each the least and the median milliseconds of the calls, of `unwind_size` and of `write_unwind`.
`speed_calls.py` says how the program is built.
"""
import statistics
import subprocess
import sys

from speed_calls import command

FUNCTIONS, ENCODINGS = 1_000_000, 300


def run(each):
    """The microseconds of both calls, and the two sizes that the program printed."""
    done = subprocess.run(command("unwind", FUNCTIONS, ENCODINGS, each), capture_output=True, text=True, check=True)
    return [int(line) for line in done.stderr.split()], done.stdout.split()


def main(runs):
    for each in (1, 2, 4, 1000):
        timed, sizes = zip(*[run(each) for _ in range(runs)])
        if any(told != written for told, written in sizes):
            sys.exit("the size isn't what was told")
        for call, times in zip(("unwind_size", "write_unwind"), zip(*timed)):
            least, median = min(times) / 1e3, statistics.median(times) / 1e3
            print(f"{each} in a row, {call}: {least:.1f} ms, median {median:.1f} ms")


if __name__ == "__main__":
    main(int(sys.argv[1]) if len(sys.argv) > 1 else 15)

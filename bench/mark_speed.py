#!/usr/bin/env python3
"""Times which of a million atoms are kept, by five million edges from a thousand roots: `mark_speed.py [RUNS]`.

The edges stand by their sources, five from each atom, and lead to any atoms. Prints the least and the median milliseconds of
`kept_from`, and of `kept_by` with 1, 2 and 4 workers, which have to keep the same atoms. `speed_calls.py` says how the
program is built.
"""
import statistics
import subprocess
import sys

from speed_calls import command

ATOMS, EDGES = 1_000_000, 5_000_000


def run(*words):
    """The microseconds of a call, and what it printed."""
    done = subprocess.run(command(*words, ATOMS, EDGES), capture_output=True, text=True, check=True)
    return int(done.stderr), done.stdout


def main(runs):
    wanted = run("kept")[1]
    for words in (("kept",), ("raced", 1), ("raced", 2), ("raced", 4)):
        timed, printed = zip(*[run(*words) for _ in range(runs)])
        if set(printed) != {wanted}:
            sys.exit(f"{words}: other atoms are kept: {printed[0]}, not {wanted}")
        name = " ".join(map(str, words))
        print(f"{name}: {min(timed) / 1e3:.0f} ms, median {statistics.median(timed) / 1e3:.0f} ms")


if __name__ == "__main__":
    main(int(sys.argv[1]) if len(sys.argv) > 1 else 5)

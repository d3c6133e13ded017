#!/usr/bin/env python3
"""Times jobs that are shared out among workers: `fan_speed.py [RUNS]`.

Runs four million jobs of 50 steps, some 80 ns each, twenty million jobs without steps, and 7 jobs of 100 million
steps, some 0.2 s each, with 1, 2 and 4 workers. Prints for each the least time of the runs, how many times as fast it
was as with one worker, and the least processor time that one job took. `speed_calls.py` says how the program is built.
"""
import os
import subprocess
import sys
import time

from speed_calls import command

LOADS = [("4 million jobs of 50 steps", 4_000_000, 50), ("20 million jobs without steps", 20_000_000, 0),
         ("7 jobs of 100 million steps", 7, 100_000_000)]


def run(workers, jobs, steps):
    """The seconds, the seconds of processor time, and what the program printed."""
    start = time.monotonic()
    child = subprocess.Popen(command("fan", workers, jobs, steps), stdout=subprocess.PIPE, text=True)
    printed = child.stdout.read()
    _, status, usage = os.wait4(child.pid, 0)
    seconds = time.monotonic() - start
    if status != 0:
        sys.exit("the program failed")
    return seconds, usage.ru_utime + usage.ru_stime, printed


def main(runs):
    for name, jobs, steps in LOADS:
        alone, sums = None, set()
        print(f"{name}:")
        for workers in (1, 2, 4):
            timed = [run(workers, jobs, steps) for _ in range(runs)]
            seconds, processor = min(one[0] for one in timed), min(one[1] for one in timed)
            sums |= {one[2] for one in timed}
            alone = alone or seconds
            print(f"  {workers} workers: {seconds * 1e3:.0f} ms, {alone / seconds:.2f} times as fast, "
                  f"{processor / jobs * 1e9:.1f} ns of processor time a job")
        if len(sums) != 1:
            sys.exit("the sums differ")


if __name__ == "__main__":
    main(int(sys.argv[1]) if len(sys.argv) > 1 else 5)

#!/usr/bin/env python3
"""Times the chains of a million pointers, half of them binds of 10,000 names: `chain_speed.py [RUNS]`.

The other half lead to 100,000 atoms in no order. Prints the least and the median milliseconds of `encode`, and how much more
memory a program needs at most that encodes the chains than one that only makes the pointers, in bytes a pointer beyond those
of the answer. Then pointers of one name with 2^24 - 1 and 2^24 addends are encoded, the first of which stands in `__TEXT`:
fewer imports than 2^24 are told as that pointer's fault, and so many as too many, which comes first. That takes some 6 GB of
memory; `chain_speed.py RUNS short` leaves it out. `speed_calls.py` says how the program is built.
"""
import os
import statistics
import subprocess
import sys

from speed_calls import command

COUNT, NAMES, ATOMS = 1_000_000, 10_000, 100_000
IMPORTS = 1 << 24


def run(*words):
    """What a call printed, its microseconds, and the bytes of memory that the program needed at most."""
    started = subprocess.Popen(command(*words), stdout=subprocess.PIPE, stderr=subprocess.PIPE, text=True)
    printed, timed = started.stdout.read(), started.stderr.read()
    _, status, usage = os.wait4(started.pid, 0)
    started.returncode = status
    if status != 0:
        sys.exit(f"{' '.join(map(str, words))}: failed: {timed}")
    return printed.split("\n")[0], timed.split(), usage.ru_maxrss * 1024


def main(runs, many):
    timed, peaks = [], []
    for _ in range(runs):
        printed, micros, peak = run("chains", COUNT, NAMES, ATOMS)
        words, blob, _ = map(int, printed.split())
        timed.append(int(micros[0]))
        peaks.append(peak)
    made = min(run("pointers", COUNT, NAMES, ATOMS)[2] for _ in range(runs))
    print(f"{words} words, {blob} bytes: {min(timed) / 1e3:.1f} ms, median {statistics.median(timed) / 1e3:.1f} ms")
    print(f"{(min(peaks) - made - 16 * words - blob) / COUNT:.1f} bytes a pointer beyond the answer")
    if not many:
        return
    for count, wanted in ((IMPORTS - 1, "Range"), (IMPORTS, "Limit(Imports)")):
        printed, micros, peak = run("imports", count)
        print(f"{count} imports: {printed}, {int(micros[0]) / 1e3:.0f} ms, {peak >> 20} MiB")
        if not printed.startswith(wanted):
            sys.exit(f"wanted {wanted}")


if __name__ == "__main__":
    main(int(sys.argv[1]) if len(sys.argv) > 1 else 9, "short" not in sys.argv[2:])

#!/usr/bin/env python3
"""Times the sealing of 64 MiB by workers: `seal_speed.py [ROUNDS]`.

Seals an image of 64 MiB with 1, 2 and 4 workers and hashes the pages of the same bytes once with as many, in turn and in
one run of the program, and has `sha256sum` hash those bytes. Prints the least of each of so many rounds, and how many
times as long as the one pass the sealing took, which is to be 1.15 at most. `speed_calls.py` says how the program is
built.
"""
import subprocess
import sys
import tempfile
import time

from speed_calls import command

SIZE = 64 << 20


def least(workers, rounds):
    """The least microseconds of the sealing and of one pass of hashing."""
    seal, hashes = ["seal", workers, SIZE], ["hash", workers, SIZE]
    words = [*seal, "then", *hashes] + ["then", *seal, "then", *hashes] * (rounds - 1)
    done = subprocess.run(command(*words), capture_output=True, text=True, check=True)
    if len(set(done.stdout.split())) != 2:
        sys.exit("the sums differ")
    took = [int(line) for line in done.stderr.split()]
    return min(took[0::2]), min(took[1::2])


def sha256sum(rounds):
    """The least microseconds of sha256sum."""
    with tempfile.NamedTemporaryFile() as file:
        file.write((bytes(range(251)) * (SIZE // 251 + 1))[:SIZE])
        file.flush()
        took = []
        for _ in range(rounds):
            start = time.monotonic()
            subprocess.run(["sha256sum", file.name], capture_output=True, check=True)
            took.append(time.monotonic() - start)
    return min(took) * 1e6


def main(rounds):
    for workers in (1, 2, 4):
        seal, hashes = least(workers, rounds)
        print(f"{workers} workers: sealed in {seal / 1e3:.0f} ms, hashed in {hashes / 1e3:.0f} ms, {seal / hashes:.2f} times as long")
    print(f"sha256sum: {sha256sum(rounds) / 1e3:.0f} ms")


if __name__ == "__main__":
    main(int(sys.argv[1]) if len(sys.argv) > 1 else 9)

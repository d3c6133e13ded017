#!/usr/bin/env python3
"""Times the link of an object by atomld, by ld64.lld and its copy by cp: `measure.py OBJECT RUNS`.

Prints the median time, the processor's time and the peak memory of each, and whether both linkers gave the
same code. ld64.lld signs its image; it is measured with and without.
"""
import os
import shutil
import statistics
import struct
import sys
import tempfile
import time
from pathlib import Path

PROGRAM = Path(__file__).resolve().parent.parent / "crates/atomld/out/atomld"
LLD_WORDS = ["-arch", "arm64", "-platform_version", "macos", "11.0", "11.0"]


def find_lld():
    """ld64.lld, or the newest of its versions."""
    names = ["ld64.lld"] + [f"ld64.lld-{version}" for version in range(30, 10, -1)]
    return next((found for found in map(shutil.which, names) if found), None)


def run(words):
    """Runs a command and answers its seconds, its seconds of processor time, and its peak memory in MiB."""
    start = time.monotonic()
    child = os.posix_spawnp(words[0], words, os.environ)
    _, status, usage = os.wait4(child, 0)
    seconds = time.monotonic() - start
    if status != 0:
        sys.exit(f"{' '.join(words)}: failed")
    return seconds, usage.ru_utime + usage.ru_stime, usage.ru_maxrss / 1024


def code_of(path):
    """The bytes of the image's `__text`."""
    image = Path(path).read_bytes()
    at = 32
    for _ in range(struct.unpack_from("<I", image, 16)[0]):
        command, size = struct.unpack_from("<II", image, at)
        if command == 0x19:
            for section in range(at + 72, at + 72 + 80 * struct.unpack_from("<I", image, at + 64)[0], 80):
                if image[section : section + 16].rstrip(b"\0") == b"__text":
                    length, offset = struct.unpack_from("<QI", image, section + 40)
                    return image[offset : offset + length]
        at += size
    return b""


def main(source, runs):
    if not PROGRAM.exists():
        sys.exit("build the program first: (cd crates/atomld && rt run)")
    with tempfile.TemporaryDirectory() as folder:
        image = {name: f"{folder}/{name}" for name in ("atomld", "lld", "unsigned", "copy")}
        commands = {"atomld": [str(PROGRAM), "-o", image["atomld"], source]}
        lld = find_lld()
        if lld:
            commands["ld64.lld"] = [lld, *LLD_WORDS, "-o", image["lld"], source]
            commands["ld64.lld, no signature"] = [lld, "-no_adhoc_codesign", *LLD_WORDS, "-o", image["unsigned"], source]
        else:
            print("ld64.lld isn't there: skipped")
        commands["cp"] = ["cp", source, image["copy"]]
        measured = {name: [] for name in commands}
        for _ in range(runs):
            # in turn, so that a busy moment of the machine meets all of them
            for name, words in commands.items():
                for path in image.values():
                    if path in words and path != source and os.path.exists(path):
                        os.remove(path)
                measured[name].append(run(words))
        base = statistics.median(seconds for seconds, _, _ in measured["atomld"])
        print(f"{os.path.getsize(source)} bytes, medians of {runs} runs")
        print(f"{'':24}{'seconds':>10}{'processor':>11}{'peak MiB':>10}{'of atomld':>11}")
        for name, results in measured.items():
            seconds, processor, peak = (statistics.median(column) for column in zip(*results))
            print(f"{name:24}{seconds:10.3f}{processor:11.3f}{peak:10.0f}{seconds / base:11.2f}")
        if lld:
            same = code_of(image["atomld"]) == code_of(image["lld"])
            print("the code of both linkers is the same" if same else "the code of the linkers DIFFERS")
            return 0 if same else 1
    return 0


if __name__ == "__main__":
    if len(sys.argv) != 3:
        sys.exit(__doc__)
    sys.exit(main(sys.argv[1], int(sys.argv[2])))

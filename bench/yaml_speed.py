#!/usr/bin/env python3
"""Times the reading of a large stub library: `yaml_speed.py [RUNS]`.

Makes the text of 100,000 symbols by `make_large_stub.py`, reads it a hundred times, and once by `llvm-nm`, which lists
it too. Prints the least processor time that one reading took of the runs, and the bytes of the text. Reads as well a text
of 5,000 keys within each other, on a stack of 64 KB. `speed_calls.py` says how the program is built.
"""
import os
import resource
import subprocess
import sys
import tempfile
from pathlib import Path

from speed_calls import command

HERE = Path(__file__).resolve().parent


def seconds(words, stack=None):
    """The seconds of processor time of a command."""
    def small():
        if stack:
            resource.setrlimit(resource.RLIMIT_STACK, (stack, stack))
    child = subprocess.Popen(words, stdout=subprocess.DEVNULL, stderr=subprocess.DEVNULL, preexec_fn=small)
    _, status, usage = os.wait4(child.pid, 0)
    if status != 0:
        sys.exit(f"{words[0]} failed")
    return usage.ru_utime + usage.ru_stime


def main(runs):
    with tempfile.TemporaryDirectory() as folder:
        text, deep = Path(folder) / "large.tbd", Path(folder) / "deep.tbd"
        subprocess.run([sys.executable, HERE / "make_large_stub.py", text], check=True)
        subprocess.run([sys.executable, HERE / "make_large_stub.py", deep, "0", "5000"], check=True)
        once = min(seconds(command("yaml", text, 1)) for _ in range(runs))
        many = min(seconds(command("yaml", text, 101)) for _ in range(runs))
        other = min(seconds(["llvm-nm", text]) for _ in range(runs))
        print(f"{text.stat().st_size} bytes: {(many - once) * 10:.1f} ms a reading, llvm-nm {other * 1000:.0f} ms")
        print(f"5,000 levels on 64 KB of stack: {seconds(command('yaml', deep, 1), 64 * 1024) * 1000:.0f} ms")


if __name__ == "__main__":
    main(int(sys.argv[1]) if len(sys.argv) > 1 else 5)

#!/usr/bin/env python3
"""Times the reading of what a large stub library says: `stub_speed.py [RUNS]`.

Makes texts of 100,000 symbols by `make_large_stub.py`: in documents of 5,000, in one document, and in one document
under `weak-symbols`. Reads each a hundred times, and prints the least processor time that one reading took of the runs.
`speed_calls.py` says how the program is built.
"""
import subprocess
import sys
import tempfile
from pathlib import Path

import make_large_stub
from speed_calls import command
from yaml_speed import seconds

HERE = Path(__file__).resolve().parent
SYMBOLS = 100_000


def texts():
    """The name of each kind of text, and the text."""
    one = make_large_stub.document(0, [make_large_stub.symbol(at) for at in range(SYMBOLS)]) + "...\n"
    yield "in one document", one
    yield "weak in one document", one.replace("    symbols:", "    weak-symbols:")


def reading(text, runs):
    once = min(seconds(command("stub", text, 1)) for _ in range(runs))
    many = min(seconds(command("stub", text, 101)) for _ in range(runs))
    return (many - once) * 10


def main(runs):
    with tempfile.TemporaryDirectory() as folder:
        path = Path(folder) / "large.tbd"
        subprocess.run([sys.executable, HERE / "make_large_stub.py", path], check=True)
        print(f"in 20 documents: {path.stat().st_size} bytes, {reading(path, runs):.1f} ms a reading")
        for kind, text in texts():
            path.write_text(text)
            print(f"{kind}: {path.stat().st_size} bytes, {reading(path, runs):.1f} ms a reading")


if __name__ == "__main__":
    main(int(sys.argv[1]) if len(sys.argv) > 1 else 5)

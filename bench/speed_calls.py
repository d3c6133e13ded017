"""The program of `crates/call_times`, whose calls the scripts beside this one time."""
import sys
from pathlib import Path

PROGRAM = Path(__file__).resolve().parent.parent / "crates/call_times/out/call_times"


def command(*words):
    """The command line that makes a call. Ends where the program wasn't built."""
    if not PROGRAM.exists():
        sys.exit("build the program first: (cd crates/call_times && rt run -- patch 1000)")
    return [PROGRAM, *map(str, words)]

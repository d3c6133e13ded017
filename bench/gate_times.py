#!/usr/bin/env python3
"""Times the gate from nothing, as a table for docs/MEASURES.md: `bench/gate_times.py [--here] [CRATE..]`.

Runs `rt ci --anew` over a fresh clone of what is committed, with names only for these crates and those below them, and
looks at its processes twice a second. With `--here` it runs `rt ci` in this checkout, prints what that says, and ends
with its status: what earlier runs kept then counts nothing.

Prints the seconds of processor time that each crate takes for its own check, for the check with its tests (which proves
the crate again), and for its must-fail edits (of which the first part proves it once more), then the sums. The seconds
are right to one for each process; on a busy machine they are up to a third more.
"""
import collections
import os
import pathlib
import re
import resource
import subprocess
import sys
import tempfile
import time

TOP = pathlib.Path(__file__).resolve().parent.parent
TICK = os.sysconf("SC_CLK_TCK")
KINDS = ("check", "tests", "edits")


def processes():
    """Each process that there is: its number, with its parent, when it began, and its seconds with those of children that ended."""
    found = {}
    for name in filter(str.isdigit, os.listdir("/proc")):
        try:
            fields = pathlib.Path("/proc", name, "stat").read_text().rsplit(")", 1)[1].split()
        except OSError:
            continue
        found[int(name)] = int(fields[1]), fields[19], sum(map(int, fields[11:15])) / TICK
    return found


def words_of(process):
    """The words with which a process was started, or none where it has ended."""
    try:
        return pathlib.Path("/proc", str(process), "cmdline").read_bytes().decode(errors="replace").split("\0")
    except OSError:
        return []


def stands_under(process, top, found):
    """Whether a process was started by another, or by one that it started."""
    while process in found and process != top:
        process = found[process][0]
    return process == top


def task_of(words):
    """The crate and what a prover's process does for it, or nothing where it is no prover's."""
    if not words[0].endswith("/rattle") or "--crate-name" not in words:
        return None
    kind = "tests" if "--test" in words else "edits" if "--incremental" in words else "check"
    return words[words.index("--crate-name") + 1], kind


def watch(run, seconds):
    """Notes the seconds of each prover's process until the run ends."""
    while run.poll() is None:
        found = processes()
        for process, (parent, began, used) in found.items():
            task = task_of(words_of(process) or [""])
            # a prover's own copies count for the one that started them
            if task and not task_of(words_of(parent) or [""]) and stands_under(process, run.pid, found):
                seconds[process, began, task] = used
        time.sleep(0.5)


def run_anew(names, seconds):
    """Runs the gate from nothing over a clone; ends where it fails."""
    with tempfile.TemporaryDirectory() as folder, open(f"{folder}/log", "w+") as log:
        subprocess.run(["git", "clone", "-q", TOP, f"{folder}/repository"], check=True)
        run = subprocess.Popen(["rt", "ci", "--anew", *names], cwd=f"{folder}/repository", stdout=log, stderr=log)
        watch(run, seconds)
        if run.returncode:
            log.seek(0)
            sys.exit(log.read())


def run_here(names, seconds):
    """Runs the gate in this checkout, and answers its status."""
    run = subprocess.Popen(["rt", "ci", *names], cwd=TOP)
    watch(run, seconds)
    return run.returncode


def print_table(seconds):
    """Prints the seconds of each crate's tasks, in the order in which the crates are listed."""
    sums = collections.defaultdict(lambda: dict.fromkeys(KINDS, 0.0))
    for (_, _, (crate, kind)), used in seconds.items():
        sums[crate][kind] += used
    lines = (TOP / "crates.txt").read_text().splitlines()
    print("| crate | check | tests | edits |\n|---|---|---|---|")
    for crate in (re.match(r"\w*", line)[0] for line in lines):
        if crate in sums:
            print(f"| `{crate}` | " + " | ".join(f"{sums[crate][kind]:.0f}" for kind in KINDS) + " |")
    print("| all | " + " | ".join(f"{sum(it[kind] for it in sums.values()):.0f}" for kind in KINDS) + " |")
    usage = resource.getrusage(resource.RUSAGE_CHILDREN)
    whole = (usage.ru_utime + usage.ru_stime) / 60
    print(f"\n{whole:.0f} minutes of processor time, with what builds and runs the programs.")


def main():
    names, seconds, status = sys.argv[1:], {}, 0
    if "--here" in names:
        names.remove("--here")
        status = run_here(names, seconds)
    else:
        run_anew(names, seconds)
    print_table(seconds)
    sys.exit(status)


if __name__ == "__main__":
    main()

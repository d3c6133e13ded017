#!/usr/bin/env python3
"""Compares what LLVM's tools list of made objects with what the numbers say: `llvm_made_objects.py`.

`call_times object` writes every object of inputs of 1 to 1,000 functions. Of each, `llvm-objdump --macho -d -r` has to list
the stated instructions, labels, calls and relocations, and `llvm-nm -m -p` the stated symbols in their order, with the weak
ones marked; here they are computed from the recurrence of the calls alone. All names that an input's objects call have to be
defined, and those that aren't weak once. `speed_calls.py` says how `call_times` is built.
"""
import subprocess
import tempfile
from pathlib import Path

from speed_calls import command

COUNTS = (1, 2, 63, 64, 65, 130, 200, 1000)


def draws_of(count):
    """The functions that are drawn, two for each function."""
    state, draws = count, []
    for _ in range(2 * count):
        state = (state * 6364136223846793005 + 1442695040888963407) % 2**64
        draws.append((state >> 33) % count)
    return draws


def function(number):
    return f"_g{number:06}"


def calls_of(count, draws):
    """The names that each function calls."""
    return [[function(draws[2 * i]), function(draws[2 * i + 1]), f"_w{i % 4}"] for i in range(count)]


def definitions(count, number):
    """The names that an object defines, with their offsets."""
    own = range(64 * number, min(64 * number + 64, count))
    names = [(function(i), 16 * (i - own.start)) for i in own]
    if number == 0:
        names.append(("_main", 0))
    weak = [number % 4] + [k for k in range((count + 63) // 64, 4) if number == 0]
    return names + [(f"_w{k}", 16 * len(own) + 4 * place) for place, k in enumerate(weak)]


def disassembly(path, calls, names):
    lines = [f"{path}:", "(__TEXT,__text) section"]
    labels = {}
    for name, offset in names:
        labels.setdefault(offset, []).append(name)
    size = 16 * len(calls) + 4 * sum(name.startswith("_w") for name, _ in names)
    for offset in range(0, size, 4):
        lines += [f"{label}:" for label in labels.get(offset, [])]
        if offset < 16 * len(calls) and offset % 16 < 12:
            lines.append(f"{offset:8x}:\t00 00 00 94\tbl\t{calls[offset // 16][offset % 16 // 4]}")
        else:
            lines.append(f"{offset:8x}:\tc0 03 5f d6\tret")
    lines.append(f"Relocation information (__TEXT,__text) {3 * len(calls)} entries")
    lines.append("address  pcrel length extern type    scattered symbolnum/value")
    for k, row in enumerate(calls):
        lines += [f"{16 * k + 4 * j:08x} True  long   True   BR26    False     {name}" for j, name in enumerate(row)]
    return lines


def symbols(names, calls):
    lines = [f"{offset:016x} (__TEXT,__text) {'weak ' * name.startswith('_w')}external {name}" for name, offset in names]
    others = sorted({name for row in calls for name in row} - {name for name, _ in names})
    return lines + [f"{'':17}(undefined) external {name}" for name in others]


def listed(*words):
    return subprocess.run(words, capture_output=True, text=True, check=True).stdout.splitlines()


def compare(what, found, wanted):
    if found != wanted:
        rows = [pair for pair in zip(found + [None], wanted + [None]) if pair[0] != pair[1]]
        raise SystemExit(f"{what}: {rows[0][0]!r} in place of {rows[0][1]!r}")


def main():
    for count in COUNTS:
        calls = calls_of(count, draws_of(count))
        defined = []
        with tempfile.TemporaryDirectory() as folder:
            for number in range((count + 63) // 64):
                path = Path(folder) / f"{number}.o"
                subprocess.run(command("object", path, count, number), check=True)
                names = definitions(count, number)
                own = calls[64 * number:64 * number + 64]
                what = f"object {number} of {count} functions"
                compare(what, listed("llvm-objdump", "--macho", "-d", "-r", path), disassembly(path, own, names))
                compare(what, listed("llvm-nm", "-m", "-p", path), symbols(names, own))
                defined += [name for name, _ in names]
        missing = {name for row in calls for name in row} - set(defined)
        strong = [name for name in defined if not name.startswith("_w")]
        if missing or len(strong) != len(set(strong)):
            raise SystemExit(f"{count} functions: names are missing or defined twice")
        print(f"{count} functions in {number + 1} objects: as stated")


if __name__ == "__main__":
    main()

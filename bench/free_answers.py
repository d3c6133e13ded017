#!/usr/bin/env python3
"""Lists where the product answers want of memory by itself: `bench/free_answers.py`.

A call that takes memory may be refused it, and hands that on by `?` or by an arm of a match that names the fault. Each other
place of `crates/*/src` that makes an `OutOfMemory` answers so though no memory was refused there: it stands for a test that a
proof should have spared. Prints the file, the line, the function and the line's text of each, and how many there are.
"""
import pathlib
import re

TOP = pathlib.Path(__file__).resolve().parent.parent

FUNCTION = re.compile(r"^\s*(?:pub(?:\([a-z]+\))? )?(?:const )?fn (\w+)")
# `OutOfMemory` as a value: handed back, or behind the path of a fault's type.
MADE = re.compile(r"(?:\bErr\(|\bok_or\(|\|_\| ?|\b[A-Z]\w*::)(?:[A-Z]\w*::)*OutOfMemory\b")
# An arm that has the fault of a call, and a body that turns one error into another or prints it.
HANDED_ON = re.compile(r"(?:OutOfMemory|Memory)\)?(?:, _\))? =>")
TURNS = {"from", "fmt", "code"}


def product():
    """The crates of the product: those that crates.txt has before its tests and measures."""
    for line in (TOP / "crates.txt").read_text(encoding="utf-8").splitlines():
        if line.startswith("# Tests"):
            return
        if line and not line.startswith("#"):
            yield line.split(":")[0].split()[0]


def places():
    """Each place that makes an `OutOfMemory`: the file, the line's number, the function, the line."""
    for crate in product():
        for path in sorted((TOP / "crates" / crate / "src").glob("**/*.rt")):
            function = ""
            for number, line in enumerate(path.read_text(encoding="utf-8").splitlines(), start=1):
                text = line.split("//")[0]
                if (here := FUNCTION.match(text)) is not None:
                    function = here[1]
                if re.match(r"\s*(?:ghost|use|ensures|requires|impl|→)\b", text) or "λ" in text or function in TURNS:
                    continue
                if MADE.search(text) and not HANDED_ON.search(text):
                    yield path.relative_to(TOP), number, function, text.strip()


def main():
    found = list(places())
    for path, number, function, text in found:
        print(f"{path}:{number}: {function}: {text}")
    print(f"{len(found)} places")


if __name__ == "__main__":
    main()

#!/usr/bin/env python3
"""Writes crates/read_tests/src/archives/llvm_files.rt: archives and a universal file that LLVM's tools make of the
sources in bench/archives, with what they have to be read as.

What they hold is taken from the text that LLVM's tools print of them: members from llvm-ar, offers from llvm-nm,
slices from llvm-objdump. None of it comes from this repository's programs.
"""

import pathlib
import re
import shutil
import subprocess
import tempfile

HERE = pathlib.Path(__file__).resolve().parent
OUT = HERE.parent / "crates/read_tests/src/archives/llvm_files.rt"


def tool(name):
    """A tool of LLVM, where only the one of its version is installed too."""
    return shutil.which(name) or shutil.which(name + "-14")


def run(folder, name, *words):
    return subprocess.run([tool(name), *words], check=True, capture_output=True, text=True, cwd=folder).stdout


def members(folder, archive):
    """Names, and where the data begin and their size, as llvm-ar lists them."""
    rows = []
    for line in run(folder, "llvm-ar", "tvO", archive).splitlines():
        found = re.match(r"\S+ \S+ +(\d+) \S+ +\d+ \S+ \d+ (.*) 0x([0-9a-f]+)$", line)
        rows.append((found[2], int(found[3], 16), int(found[1])))
    return rows


def offers(folder, archive, rows):
    """Names, and the numbers of the first members of those names, as llvm-nm lists the archive's map."""
    text = run(folder, "llvm-nm", "--print-armap", archive)
    if "Archive map" not in text:
        return []
    lines = text.split("Archive map\n", 1)[1].split("\n\n", 1)[0].splitlines()
    names = [row[0] for row in rows]
    return [(line.split(" in ", 1)[0], names.index(line.split(" in ", 1)[1]) + 1) for line in lines]


def described(folder, archive):
    rows = members(folder, archive)
    given = offers(folder, archive, rows)
    first = {name: min(number for other, number in given if other == name) for name, _ in given}
    told = [f"{name}@{place}+{size}" for name, place, size in rows] + ["|"]
    return " ".join(told + [f"{name}={number}/{first[name]}" for name, number in given])


def literal(data):
    lines = []
    for at in range(0, len(data), 24):
        lines.append("".join(f"\\x{byte:02x}" for byte in data[at : at + 24]))
    return '    b"\\\n' + "\\\n".join(lines) + '"\n'


def function(name, comment, data):
    return f"// {comment}\npub fn {name}() -> &'static [u8] {{\n{literal(data)}}}\n\n"


def main():
    with tempfile.TemporaryDirectory() as folder:
        folder = pathlib.Path(folder)
        for source in ("alpha", "beta"):
            run(folder, "clang", "--target=arm64-apple-macos11", "-c", str(HERE / f"archives/{source}.s"), "-o", f"{source}.o")
        run(folder, "clang", "--target=x86_64-apple-macos11", "-c", str(HERE / "archives/beta.s"), "-o", "other.o")
        shutil.copy(folder / "alpha.o", folder / "two words.o")
        run(folder, "llvm-ar", "--format=darwin", "rcS", "plain.a", "two words.o", "beta.o")
        run(folder, "llvm-ar", "--format=darwin", "rcS", "ranlib.a", "alpha.o", "two words.o", "beta.o")
        run(folder, "llvm-ranlib", "ranlib.a")
        run(folder, "llvm-libtool-darwin", "-static", "-o", "libtool.a", "beta.o", "alpha.o")
        small = ["-segalign", "arm64", "10", "-segalign", "x86_64", "10"]
        run(folder, "llvm-lipo", "-create", "other.o", "alpha.o", *small, "-output", "both.o")
        made = {name: described(folder, f"{name}.a") for name in ("plain", "ranlib", "libtool")}
        headers = run(folder, "llvm-objdump", "--macho", "--universal-headers", "both.o")
        arm64 = headers.split("architecture arm64", 1)[1]
        offset, size = (int(re.search(rf"{word} (\d+)", arm64)[1]) for word in ("offset", "size"))
        text = "//! Written by bench/llvm_archives.py: files that LLVM's tools make, and what these print of them.\n\n"
        text += function("plain", "llvm-ar --format=darwin rcS", (folder / "plain.a").read_bytes())
        text += f'pub const PLAIN: &str = "{made["plain"]}";\n\n'
        text += function("ranlib", "llvm-ranlib", (folder / "ranlib.a").read_bytes())
        text += f'pub const RANLIB: &str = "{made["ranlib"]}";\n\n'
        text += function("libtool", "llvm-libtool-darwin -static", (folder / "libtool.a").read_bytes())
        text += f'pub const LIBTOOL: &str = "{made["libtool"]}";\n\n'
        text += function("both", "llvm-lipo -create, of x86_64 and arm64", (folder / "both.o").read_bytes())
        text += f"pub const BOTH: (usize, usize) = ({offset}, {size});\n"
        OUT.write_text(text)


main()

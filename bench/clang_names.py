#!/usr/bin/env python3
"""Writes crates/resolve_tests/src/clang_names.rt: an object that clang makes of bench/clang/names.c, with what its names
have to be read as.

Which names the object offers to others, and how, is taken from what llvm-nm prints of it; none of it comes from this
repository's programs.
"""

import pathlib
import re
import subprocess
import tempfile

HERE = pathlib.Path(__file__).resolve().parent
SOURCE = "names.c"
OUT = HERE.parent / "crates/resolve_tests/src/clang_names.rt"

LINE = re.compile(r"(?P<value>[0-9a-f]{16}| {16}) \((?P<place>[^)]*)\) (?:\(alignment 2\^(?P<align>\d+)\) )?(?P<words>.*) (?P<name>\S+)")


def told(line):
    """The name of a line of `llvm-nm -m`, and of a name that is offered the strength, whether other images see it, and a
    common symbol's size and alignment."""
    found = LINE.fullmatch(line)
    words = found["words"].split()
    if found["place"] == "undefined" or "non-external" in words:
        return found["name"], None
    common = found["place"] == "common"
    strength = 2 if common else 1 if "weak" in words else 0
    size = int(found["value"], 16) if common else 0
    return found["name"], (strength, "private" not in words, size, int(found["align"] or 0))


def spelled(data):
    """Bytes as a literal, 24 a line."""
    rows = ["".join(f"\\x{byte:02x}" for byte in data[at : at + 24]) for at in range(0, len(data), 24)]
    return 'b"' + "".join("\\\n" + row for row in rows) + '"'


HEAD = f"""//! An object that clang made, with what llvm-nm says of its names. Written by bench/clang_names.py from
//! bench/clang/{SOURCE}.

/// What an object offers of a name: the strength (0 strong, 1 weak, 2 common), whether other images see it, and of a common
/// symbol the size and the alignment's exponent.
pub type Told = (u64, bool, u64, u8);

"""


def main():
    with tempfile.TemporaryDirectory() as folder:
        path = f"{folder}/names.o"
        # without compact unwind entries, which objects that are linked don't have yet
        words = ["clang", "-target", "arm64-apple-macos11", "-O1", "-fcommon", "-fno-unwind-tables"]
        words += ["-fno-asynchronous-unwind-tables", "-c", str(HERE / "clang" / SOURCE), "-o", path]
        subprocess.run(words, check=True)
        data = pathlib.Path(path).read_bytes()
        text = subprocess.run(["llvm-nm", "-m", path], check=True, capture_output=True, text=True).stdout
    names = [told(line) for line in text.splitlines()]
    lines = [f"pub static OBJECT: &[u8] = {spelled(data)};", ""]
    lines += ["/// Each name, and what the object offers of it.", f"pub static NAMES: [(&[u8], Option<Told>); {len(names)}] = ["]
    for name, offered in names:
        value = "None" if offered is None else "Some((%d, %s, %d, %d))" % (offered[0], str(offered[1]).lower(), *offered[2:])
        lines.append(f'    (b"{name}", {value}),')
    lines += ["];", ""]
    OUT.write_text(HEAD + "\n".join(lines))


main()

#!/usr/bin/env python3
"""Writes crates/unwind_tests/src/clang_objects.rt: objects that clang makes of sources in bench/clang, with the unwind
entries that they have to be read as.

What the objects hold is taken from the text that llvm-readobj prints of them, and the entries from what `llvm-objdump
--macho --unwind-info` says of them: none of it comes from this repository's programs.
"""

import pathlib
import re
import subprocess
import tempfile

from clang_objects import HERE, cuts, is_linked, read, spelled, truth

OUT = HERE.parent / "crates/unwind_tests/src/clang_objects.rt"
SOURCES = {"frames.cpp": ["-O1", "-fexceptions"], "pieces.s": [], "names.c": ["-O1", "-funwind-tables"]}


def printed(path):
    """The entries that llvm-objdump prints: start, length, encoding, and perhaps the personality's name and the lsda."""
    text = subprocess.run(["llvm-objdump", "--macho", "--unwind-info", path], check=True, capture_output=True, text=True).stdout
    entries = []
    for line in text.splitlines():
        found = re.match(r"\s+(start|length|compact encoding|personality function|LSDA):\s+(0x[0-9a-f]+)\s*(\S*)", line)
        if line.strip().startswith("Entry at offset"):
            entries.append({})
        elif found:
            entries[-1][found[1]] = (int(found[2], 16), found[3])
    return entries


def place(found, address):
    """Section, offset and the cut of its atom of an address."""
    for number, section in enumerate(found["sections"], 1):
        if is_linked(section) and section["address"] <= address < section["address"] + section["size"]:
            offset = address - section["address"]
            return number, offset, max(cut for cut in cuts(found, number) if cut <= offset)
    raise ValueError(hex(address))


def unwinds(found, path):
    """Each entry's atom, offset, length, encoding, personality's symbol or place, and lsda's place."""
    rows = []
    for entry in printed(path):
        number, offset, start = place(found, entry["start"][0])
        ends = [cut for cut in cuts(found, number) if cut > offset] + [found["sections"][number - 1]["size"]]
        length = min(entry["length"][0], ends[0] - offset)
        person, handler = None, None
        if "personality function" in entry:
            address, name = entry["personality function"]
            symbol = [s["name"] for s in found["symbols"]].index(name)
            # a symbol of another object has no address here; one of this object is told by its address
            if found["symbols"][symbol]["section"] == 0:
                person = symbol
            else:
                section, at, cut = place(found, address)
                handler = (section, cut, at - cut)
        lsda = None
        if "LSDA" in entry:
            section, at, cut = place(found, entry["LSDA"][0])
            lsda = (section, cut, at - cut)
        if length:
            rows.append((number, start, offset - start, length, entry["compact encoding"][0], person, handler, lsda))
    return rows


def some(value):
    if value is None:
        return "None"
    return f"Some({value})" if isinstance(value, int) else "Some((%d, %#x, %#x))" % value


def object_text(name, found, path):
    lines = [f"// Of bench/clang/{name}.", "ClangObject {", f"subsections: {truth(found['subsections'])},", "sections: &["]
    for section in found["sections"]:
        lines += ["ClangSection {", f'names: (b"{section["segment"]}", b"{section["name"]}"),']
        lines += [f"place: ({section['address']:#x}, {section['size']:#x}, {section['align']}),"]
        lines += [f"flags: ({section['kind']:#x}, {section['attributes']:#x}),"]
        lines += [f"offsets: ({section['offset']:#x}, {section['reloc_offset']:#x}),"]
        lines += [f"bytes: {spelled(section['data'])},", "relocs: &["]
        for r in section["relocs"]:
            row = f"{r['kind']}, {r['address']:#x}, {r['number']}, {truth(r['pcrel'])}, {r['length']}, {truth(r['external'])}"
            lines += [f"({row}),"]
        lines += ["],", "},"]
    lines += ["],", "symbols: &["]
    for s in found["symbols"]:
        lines += [f'(b"{s["name"]}", {s["section"]}, {s["value"]:#x}, {truth(s["external"])}, {truth(s["alt"])}),']
    lines += ["],", "unwinds: &["]
    for number, start, offset, length, encoding, person, handler, lsda in unwinds(found, path):
        lines += [f"({number}, {start:#x}, {offset:#x}, {length:#x}, {encoding:#x}, {some(person)}, {some(handler)}, {some(lsda)}),"]
    return lines + ["],", "},"]


HEAD = '''//! Objects that clang made, with the unwind entries that llvm-objdump tells of them. Written by bench/clang_unwinds.py
//! from the sources in bench/clang.

use crate::made::Raw;

/// A section of an object.
pub struct ClangSection {
    /// Of the segment and of the section.
    pub names: (&'static [u8], &'static [u8]),
    /// The address, the size, and the alignment's exponent.
    pub place: (u64, u64, u8),
    /// The type, and the flags without it.
    pub flags: (u8, u32),
    /// The offsets of the contents and of the relocations in the file.
    pub offsets: (u64, u64),
    pub bytes: &'static [u8],
    pub relocs: &'static [Raw],
}

/// A place: its atom's section and offset, and the offset there.
pub type Place = (u16, u64, u64);

/// An entry: its place, length and encoding, the personality's symbol or its place, and the place of the lsda.
pub type UnwindRow = (u16, u64, u64, u32, u32, Option<u32>, Option<Place>, Option<Place>);

/// An object, and what it is to be read as.
pub struct ClangObject {
    pub subsections: bool,
    pub sections: &'static [ClangSection],
    /// Each symbol's name, section (0: undefined), value, and whether it is external and an alternative entry.
    pub symbols: &'static [(&'static [u8], u8, u64, bool, bool)],
    pub unwinds: &'static [UnwindRow],
}
'''


def main():
    lines = [HEAD, f"pub static OBJECTS: [ClangObject; {len(SOURCES)}] = ["]
    with tempfile.TemporaryDirectory() as folder:
        for name, words in SOURCES.items():
            path = f"{folder}/{name}.o"
            source = str(pathlib.Path(HERE) / "clang" / name)
            subprocess.run(["clang", "-target", "arm64-apple-macos11", *words, "-c", source, "-o", path], check=True, stderr=subprocess.DEVNULL)
            lines += object_text(name, read(path), path)
    lines += ["];", ""]
    OUT.write_text("\n".join(lines))


main()

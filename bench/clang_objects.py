#!/usr/bin/env python3
"""Writes crates/read_tests/src/references/clang_objects.rt: objects that clang makes of the sources in bench/clang,
with the atoms and references that they have to be read as.

What the objects hold is taken from the text that llvm-readobj prints of them, and so are the atoms and
references: from its symbols, sections and relocations. None of it comes from this repository's programs.
"""

import pathlib
import re
import subprocess
import tempfile

HERE = pathlib.Path(__file__).resolve().parent
OUT = HERE.parent / "crates/read_tests/src/references/clang_objects.rt"
SOURCES = ["calls.s", "pointers.s", "literals.s", "uncut.s", "variables.c"]

LITERALS = {3: 4, 4: 8, 0xE: 16}
STRINGS = 2
# sections without bytes in the file; llvm-readobj prints some for the second type all the same
ZEROFILL = (1, 0x12)

# what a relocation alone is a reference of, by its type's name
KINDS = {
    "UNSIGNED": "Pointer",
    "BRANCH26": "Branch",
    "PAGE21": "Page",
    "PAGEOFF12": "PageOff",
    "GOT_LOAD_PAGE21": "GotPage",
    "GOT_LOAD_PAGEOFF12": "GotPageOff",
    "TLVP_LOAD_PAGE21": "TlvPage",
    "TLVP_LOAD_PAGEOFF12": "TlvPageOff",
}


def printed(path):
    """What llvm-readobj prints of an object: a tree of lines, each with those that are indented below it."""
    words = ["--file-headers", "--sections", "--section-data", "--symbols", "--relocations", "--expand-relocs"]
    text = subprocess.run(["llvm-readobj", *words, path], check=True, capture_output=True, text=True).stdout
    root = (-1, "", [])
    above = [root]
    for line in text.splitlines():
        indent = len(line) - len(line.lstrip())
        if line.strip() in ("", "}", "]", ")"):
            continue
        while above[-1][0] >= indent:
            above.pop()
        node = (indent, line.strip(), [])
        above[-1][2].append(node)
        above.append(node)
    return root


def below(node, heading):
    """The nodes under the one of a heading."""
    return next(inner for _, line, inner in node if line == heading)


def value(node, name):
    """What a line `name: value` says."""
    return next((line.split(":", 1)[1].strip() for _, line, _ in node if line.startswith(name + ":")), None)


def in_brackets(text):
    return int(re.search(r"\((\w+)\)$", text).group(1), 0)


def flags(node, name):
    """The number behind `name [ (..)`."""
    line = next(line for _, line, _ in node if line.startswith(name + " ["))
    return int(re.search(r"\((\w+)\)", line).group(1), 0)


def data_of(node):
    words = []
    for _, line, inner in node:
        if line.startswith("SectionData"):
            for _, row, _ in inner:
                words.append(row.split(":", 1)[1].split("|")[0])
    return bytes.fromhex("".join("".join(words).split()))


def section(node):
    kind = in_brackets(value(node, "Type"))
    return {
        "name": value(node, "Name").split(" (")[0],
        "segment": value(node, "Segment").split(" (")[0],
        "address": int(value(node, "Address"), 0),
        "size": int(value(node, "Size"), 0),
        "offset": int(value(node, "Offset")),
        "align": int(value(node, "Alignment")),
        "reloc_offset": int(value(node, "RelocationOffset"), 0),
        "kind": kind,
        # llvm-readobj prints the flags above the type as a number of their own
        "attributes": flags(node, "Attributes") << 8,
        "data": b"" if kind in ZEROFILL else data_of(node),
        "relocs": [],
    }


def symbol(node):
    kind = value(node, "Type")
    defined = kind.startswith("Section")
    if not defined and not kind.startswith("Undef"):
        raise ValueError(kind)
    return {
        "name": value(node, "Name").rsplit(" (", 1)[0],
        "section": in_brackets(value(node, "Section")) if defined else 0,
        "value": int(value(node, "Value"), 0),
        "external": any(line == "Extern" for _, line, _ in node),
        "alt": bool(flags(node, "Flags") & 0x200),
    }


def relocation(node):
    kind = value(node, "Type")
    names = value(node, "Symbol")
    return {
        "type": kind.split(" ")[0].removeprefix("ARM64_RELOC_"),
        "kind": in_brackets(kind),
        "address": int(value(node, "Offset"), 0),
        "pcrel": value(node, "PCRel") == "1",
        "length": int(value(node, "Length")),
        "external": names is not None,
        "number": in_brackets(names if names is not None else value(node, "Section")),
    }


def read(path):
    root = printed(path)[2]
    header = below(root, "MachHeader {")
    sections = [section(node) for _, _, node in below(root, "Sections [")]
    for _, line, node in below(root, "Relocations ["):
        named = [s for s in sections if line == f"Section {s['name']} {{"]
        if len(named) != 1:
            raise ValueError(line)
        named[0]["relocs"] = [relocation(inner) for _, _, inner in node]
    return {
        "subsections": bool(flags(header, "Flags") & 0x2000),
        "sections": sections,
        "symbols": [symbol(node) for _, _, node in below(root, "Symbols [")],
    }


def is_linked(section):
    """Whether a linker takes the section's bytes: none for itself, of debugging data, or of frames."""
    if section["segment"] in ("__LD", "__DWARF", "__LLVM") or section["attributes"] & 0x0200_0000:
        return False
    return (section["segment"], section["name"]) != ("__TEXT", "__eh_frame")


def cuts(found, number):
    section = found["sections"][number - 1]
    size = section["size"]
    if section["kind"] in LITERALS:
        inner = range(0, size, LITERALS[section["kind"]])
    elif section["kind"] == STRINGS:
        inner = [end + 1 for end in range(size) if section["data"][end] == 0]
    elif found["subsections"]:
        inner = [
            symbol["value"] - section["address"]
            for symbol in found["symbols"]
            if symbol["section"] == number and not symbol["alt"] and not symbol["name"].startswith("L")
        ]
    else:
        inner = []
    return sorted({0, *(cut for cut in inner if cut < size)})


def atoms(found):
    """Each atom's section, offset, size and alignment exponent."""
    out = []
    for number, section in enumerate(found["sections"], 1):
        if not is_linked(section):
            continue
        starts = cuts(found, number)
        for start, end in zip(starts, starts[1:] + [section["size"]]):
            align = section["align"]
            while start % 2**align:
                align -= 1
            out.append((number, start, end - start, align))
    return out


def signed(number, bits):
    return number - 2**bits if number >> (bits - 1) else number


def references(found):
    """Each reference's atom, place, place in the file, kind, target's symbol, subtracted symbol and addend."""
    out = []
    for number, section in enumerate(found["sections"], 1):
        if not is_linked(section):
            continue
        first = None
        for reloc in section["relocs"]:
            if reloc["type"] in ("SUBTRACTOR", "ADDEND"):
                first = reloc
                continue
            if not reloc["external"]:
                raise ValueError("a linked section's relocation without a symbol")
            width = 8 if reloc["length"] == 3 else 4
            content = section["data"][reloc["address"] : reloc["address"] + width]
            addend, minus = 0, None
            if reloc["type"] == "UNSIGNED":
                kind = "Pointer"
                addend = signed(int.from_bytes(content, "little"), 8 * width)
                if first is not None:
                    kind = "Diff64" if width == 8 else "Diff32"
                    minus = first["number"]
            elif reloc["type"] == "POINTER_TO_GOT":
                kind = "GotDelta" if reloc["pcrel"] else "GotPointer"
            else:
                kind = KINDS[reloc["type"]]
                if first is not None:
                    addend = signed(first["number"], 24)
            first = None
            start = max(cut for cut in cuts(found, number) if cut <= reloc["address"])
            place = reloc["address"] - start
            out.append((number, start, place, section["offset"] + reloc["address"], kind, reloc["number"], minus, addend))
    return out


def truth(value):
    return "true" if value else "false"


def spelled(data):
    """Bytes as a literal, 24 a line."""
    rows = ["".join(f"\\x{byte:02x}" for byte in data[at : at + 24]) for at in range(0, len(data), 24)]
    return 'b"' + "".join("\\\n" + row for row in rows) + '"'


def object_text(name, found):
    """The object and what it is to be read as."""
    lines = [f"// Of bench/clang/{name}.", "ClangObject {"]
    lines += [f"subsections: {truth(found['subsections'])},", "sections: &["]
    for section in found["sections"]:
        lines += ["ClangSection {"]
        lines += [f'names: (b"{section["segment"]}", b"{section["name"]}"),']
        lines += [f"place: ({section['address']:#x}, {section['size']:#x}, {section['align']}),"]
        lines += [f"flags: ({section['kind']:#x}, {section['attributes']:#x}),"]
        lines += [f"offsets: ({section['offset']:#x}, {section['reloc_offset']:#x}),"]
        lines += [f"bytes: {spelled(section['data'])},", "relocs: &["]
        for r in section["relocs"]:
            row = f"{r['kind']}, {r['address']:#x}, {r['number']}, {truth(r['pcrel'])}, {r['length']}, {truth(r['external'])}"
            lines += [f"({row}),"]
        lines += ["],", "},"]
    lines += ["],", "symbols: &["]
    for s in found["symbols"]:
        lines += [f'(b"{s["name"]}", {s["section"]}, {s["value"]:#x}, {truth(s["external"])}, {truth(s["alt"])}),']
    lines += ["],", "atoms: &["]
    lines += [f"({number}, {start:#x}, {size:#x}, {align})," for number, start, size, align in atoms(found)]
    lines += ["],", "refs: &["]
    for number, start, place, file_place, kind, target, minus, addend in references(found):
        minus = "None" if minus is None else f"Some({minus})"
        lines += [f"({number}, {start:#x}, {place:#x}, {file_place:#x}, RefKind::{kind}, {target}, {minus}, {addend}),"]
    lines += ["],", "},"]
    return lines


HEAD = '''//! Objects that clang made, with the atoms and references that llvm-readobj's account of them gives. Written by
//! bench/clang_objects.py from the sources in bench/clang.

use mo_types::RefKind;

/// A relocation: its type, address, number, and its r_pcrel, r_length and r_extern.
pub type Raw = (u8, u32, u32, bool, u8, bool);

/// A section of an object.
pub struct ClangSection {
    /// Of the segment and of the section.
    pub names: (&'static [u8], &'static [u8]),
    /// The address, the size, and the alignment's exponent.
    pub place: (u64, u64, u8),
    /// The type, and the flags without it.
    pub flags: (u8, u32),
    /// The offsets of the contents and of the relocations in the file.
    pub offsets: (u64, u64),
    pub bytes: &'static [u8],
    pub relocs: &'static [Raw],
}

/// An object, and what it is to be read as.
pub struct ClangObject {
    pub subsections: bool,
    pub sections: &'static [ClangSection],
    /// Each symbol's name, section (0: undefined), value, and whether it is external and an alternative entry.
    pub symbols: &'static [(&'static [u8], u8, u64, bool, bool)],
    /// Each atom's section, offset, size, and alignment's exponent.
    pub atoms: &'static [(u16, u64, u64, u8)],
    /// Each reference's atom by section and offset, place in it and in the file, kind, target and subtracted
    /// symbol by index, and addend.
    pub refs: &'static [(u16, u64, u64, u64, RefKind, u32, Option<u32>, i64)],
}
'''


def main():
    lines = [HEAD, f"pub static OBJECTS: [ClangObject; {len(SOURCES)}] = ["]
    with tempfile.TemporaryDirectory() as folder:
        for name in SOURCES:
            path = f"{folder}/{name}.o"
            words = ["clang", "-target", "arm64-apple-macos11", "-O1", "-c", str(HERE / "clang" / name), "-o", path]
            subprocess.run(words, check=True)
            lines += object_text(name, read(path))
    lines += ["];", ""]
    OUT.write_text("\n".join(lines))


main()

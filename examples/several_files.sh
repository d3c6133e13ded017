#!/usr/bin/env bash
# Has clang compile the three files of several/, links their objects by the built program, and checks the image by what
# the objects say: that each function and datum stands in it once, that each of their references leads to the place of
# the symbol that its relocation names, and each entry of the switch's table to the instruction at its label in clang's
# own assembly. Where ld64.lld is there, its image of the same objects is checked so too, and has the same code.
set -euo pipefail
. "$(dirname "$0")/tools.sh"
clang=$(tool clang)
objdump=$(tool llvm-objdump)
[ -n "$clang" ] && [ -n "$objdump" ] || { echo "skipped: clang or llvm-objdump isn't there"; exit 0; }
lld=$(tool ld64.lld)
[ -n "$lld" ] || lld=$(ls /usr/lib/llvm-*/bin/ld64.lld 2>/dev/null | sort -V | tail -n 1 || true)

folder=$(mktemp -d)
trap 'rm -rf "$folder"' EXIT
cd "$folder"
compile() {
    "$clang" -target arm64-apple-macos11 -O1 "$@"
}
for file in main numbers operate; do
    compile -c "$examples/several/$file.c" -o "$file.o"
done
compile -S "$examples/several/operate.c" -o operate.s
"$program" -o image main.o numbers.o operate.o
"$objdump" --macho -d image

cat > check.py <<'PYTHON'
import re
import struct
import sys

BRANCH26, PAGE21, PAGEOFF12, ADDEND, SUBTRACTOR, UNSIGNED = 2, 3, 4, 10, 1, 0
# the bits of a field of four bytes that the linker writes
FIELDS = {BRANCH26: 0x03FFFFFF, PAGE21: 0x60FFFFE0, PAGEOFF12: 0x003FFC00, UNSIGNED: 0xFFFFFFFF}


def signed(number, bits):
    return number - (number >> (bits - 1) << bits)


def read(path):
    """The sections of an object or image, and the rows of its symbols: name, type, section, value."""
    file = open(path, "rb").read()
    sections, symbols, at = [], [], 32
    for _ in range(struct.unpack_from("<I", file, 16)[0]):
        command, size = struct.unpack_from("<II", file, at)
        if command == 0x19:
            for row in range(at + 72, at + 72 + 80 * struct.unpack_from("<I", file, at + 64)[0], 80):
                name, segment, address, length, offset, _, relocations, count, flags = struct.unpack_from(
                    "<16s16sQQ5I", file, row)
                sections.append({
                    "name": (segment.rstrip(b"\0"), name.rstrip(b"\0")), "address": address, "size": length,
                    "bytes": None if flags & 0xFF == 1 else file[offset : offset + length],
                    "relocations": [struct.unpack_from("<iI", file, relocations + 8 * i) for i in range(count)]})
        elif command == 2:
            rows, count, names = struct.unpack_from("<III", file, at + 8)
            for i in range(count):
                name, kind, section, _, value = struct.unpack_from("<IBBHQ", file, rows + 16 * i)
                symbols.append((file[names + name : file.index(b"\0", names + name)], kind, section, value))
        at += size
    return sections, symbols


def linked(sections):
    """The sections that stand in an image, with their numbers; one of segment __LD tells the linker of others."""
    return [(number, section) for number, section in enumerate(sections, 1) if section["name"][0] != b"__LD"]


def starts_of(symbols, number, section):
    """Where the atoms of a section start."""
    return sorted({section["address"], *(value for _, _, at, value in symbols if at == number)})


def place_of(image, section, start, end, fields):
    """The address at which a part of a section of an object stands in the image: the only place with its bytes, but for
    the fields that the linker writes."""
    there = next(s for s in image if s["name"] == section["name"])
    if section["bytes"] is None:
        # the only atom of its kind
        assert there["size"] == end - start
        return there["address"]
    mask = bytearray(b"\xff" * (end - start))
    for place, bits in fields.items():
        if start <= section["address"] + place < end:
            at = section["address"] + place - start
            mask[at : at + 4] = (~bits & 0xFFFFFFFF).to_bytes(4, "little")
    mask = int.from_bytes(mask, "little")
    wanted = int.from_bytes(section["bytes"][start - section["address"] : end - section["address"]], "little") & mask
    found = [
        at for at in range(0, there["size"] - (end - start) + 1)
        if int.from_bytes(there["bytes"][at : at + end - start], "little") & mask == wanted]
    assert len(found) == 1, f"{section['name']} at {start:#x} stands {len(found)} times in the image"
    return there["address"] + found[0]


def fields_of(section):
    """The bits that the linker writes, by place, and each field's kind, symbol, subtracted symbol and addend."""
    fields, references, first = {}, [], None
    for place, row in section["relocations"]:
        number, kind = row & 0xFFFFFF, row >> 28
        if kind in (SUBTRACTOR, ADDEND):
            first = number
            continue
        fields[place] = FIELDS[kind]
        references.append((place, kind, number, first))
        first = None
    return fields, references


def word_at(image, address):
    for section in image:
        if section["bytes"] is not None and section["address"] <= address < section["address"] + section["size"]:
            return struct.unpack_from("<I", section["bytes"], address - section["address"])[0]
    raise AssertionError(f"{address:#x} isn't in the image")


def led_to(image, kind, address):
    """Where the field at an address leads: for a branch its goal, else a part of the goal's address."""
    word = word_at(image, address)
    if kind == BRANCH26:
        return address + 4 * signed(word & 0x3FFFFFF, 26)
    if kind == PAGE21:
        return (address >> 12) + signed((word >> 5 & 0x7FFFF) << 2 | word >> 29 & 3, 21)
    # an offset counts in the units of what is loaded; `add` and bytes have the unit 1
    is_load = word & 0x3B000000 == 0x39000000
    return (word >> 10 & 0xFFF) << (word >> 30 if is_load else 0)


def check(path, names):
    """Checks an image of some objects, and answers the places in it by file and name."""
    image, _ = read(path)
    objects = [read(name) for name in names]
    places, external = {}, {}
    for name, (sections, symbols) in zip(names, objects):
        for number, section in linked(sections):
            fields, _ = fields_of(section)
            starts = starts_of(symbols, number, section)
            for start, end in zip(starts, starts[1:] + [section["address"] + section["size"]]):
                place = place_of(image, section, start, end, fields)
                for symbol, kind, at, value in symbols:
                    if at == number and value == start:
                        places[name, symbol] = place
                        if kind & 1:
                            external[symbol] = place
    counts = {}
    for name, (sections, symbols) in zip(names, objects):
        for number, section in linked(sections):
            starts = starts_of(symbols, number, section)
            for place, kind, target, first in fields_of(section)[1]:
                start = max(s for s in starts if s <= section["address"] + place)
                label = next(symbol for symbol, _, at, value in symbols if at == number and value == start)
                address = places[name, label] + section["address"] + place - start
                symbol = symbols[target][0]
                goal = places.get((name, symbol), external.get(symbol))
                if kind == UNSIGNED:
                    # a difference; what stands in the object is added to it
                    goal += signed(struct.unpack_from("<I", section["bytes"], place)[0], 32)
                    goal -= places[name, symbols[first][0]]
                    led = signed(word_at(image, address), 32)
                else:
                    goal += signed(first or 0, 24)
                    led = led_to(image, kind, address)
                    goal = {BRANCH26: goal, PAGE21: goal >> 12, PAGEOFF12: goal & 0xFFF}[kind]
                assert led == goal, f"{path}: {name} at {place:#x} leads to {led:#x}, not to {goal:#x} of {symbol}"
                counts[kind] = counts.get(kind, 0) + 1
    return image, places, counts


def check_switch(image, places):
    """The entries of the switch's table, behind the three distances of `steps`, lead to clang's labels."""
    text = open("operate.s").read()
    body = re.search(r"^_operate:.*?^\s*\.(?:loh|section)", text, re.M | re.S).group(0)
    offsets, at = {}, 0
    for line in body.splitlines()[1:]:
        line = line.split(";")[0].rstrip()
        if re.match(r"\w+:$", line):
            offsets[line[:-1]] = at
        elif re.match(r"\s+[a-z]", line):
            at += 4
    entries = re.findall(r"^\s*\.byte\s+\((\w+)-(\w+)\)>>2", text, re.M)
    assert len(entries) == 7
    function, table = places["operate.o", b"_operate"], places["operate.o", b"_steps"] + 12
    # the table's distances count from where the one `adr` leads
    adr = [a for a in range(function, function + at, 4) if word_at(image, a) & 0x9F000000 == 0x10000000]
    assert len(adr) == 1
    word = word_at(image, adr[0])
    base = adr[0] + signed((word >> 5 & 0x7FFFF) << 2 | word >> 29 & 3, 21)
    section = next(s for s in image if s["address"] <= table < s["address"] + s["size"])
    for case, (label, _) in enumerate(entries):
        led = base + 4 * section["bytes"][table - section["address"] + case]
        assert led == function + offsets[label], f"case {case} leads to {led:#x}"
    return len(entries)


def code_of(image, pages):
    """The code, without the instructions of which the linker writes the address's page or the offset in it."""
    text = next(s for s in image if s["name"] == (b"__TEXT", b"__text"))
    words = struct.unpack(f"<{text['size'] // 4}I", text["bytes"])
    return [word for at, word in enumerate(words) if text["address"] + 4 * at not in pages]


def page_fields(objects, places):
    found = set()
    for name in objects:
        sections, symbols = read(name)
        for number, section in linked(sections):
            starts = starts_of(symbols, number, section)
            for place, kind, _, _ in fields_of(section)[1]:
                if kind in (PAGE21, PAGEOFF12):
                    start = max(s for s in starts if s <= section["address"] + place)
                    label = next(symbol for symbol, _, at, value in symbols if at == number and value == start)
                    found.add(places[name, label] + section["address"] + place - start)
    return found


objects = ["main.o", "numbers.o", "operate.o"]
codes = []
for path in sys.argv[1:]:
    image, places, counts = check(path, objects)
    entries = check_switch(image, places)
    print(
        f"{path}: {counts[BRANCH26]} branches, {counts[PAGE21]} pages, {counts[PAGEOFF12]} offsets in pages and "
        f"{counts[UNSIGNED]} distances lead where they are to, and so do {entries} entries of the switch's table")
    codes.append(code_of(image, page_fields(objects, places)))
assert all(code == codes[0] for code in codes), "the code of the linkers differs"
PYTHON

images=(image)
if [ -n "$lld" ]; then
    "$lld" -arch arm64 -platform_version macos 11.0 11.0 -o lld main.o numbers.o operate.o
    images+=(lld)
else
    echo "ld64.lld isn't there: its image isn't compared"
fi
python3 check.py "${images[@]}"
echo "as it should be"

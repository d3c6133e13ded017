"""Compares what images of the same objects say of unwinding: compare.py OBJDUMP OBJECT.. -- IMAGE..

A function of the objects is found in an image by its bytes, but for the fields that a linker writes; where the image's table
of symbols names it, it is to stand there. What unwinds it is read by `llvm-objdump --macho --unwind-info`, of the objects and
of the images. For each instruction of a function the row of the image that covers it is to have the encoding of the object's
entry, but for the number of the personality, or 0 where the object has no entry. The personality's slot is to be one that
the loader binds to the name which the object has, and the place that the handler reads is to have the object's bytes there,
with each type in it led to a slot that the loader binds to its name. The images are to have the same functions.
"""
import collections
import re
import struct
import subprocess
import sys

# the bits of a word that a linker writes, by the kind of a relocation; it may make an addition of the load of an address
FIELDS = {2: 0x03FFFFFF, 3: 0x60FFFFE0, 4: 0x003FFC00, 5: 0x60FFFFE0, 6: 0xFFFFFC00, 7: 0xFFFFFFFF}
TO_SLOT = 7
ENCODING, HAS_LSDA, PERSONALITY = 0x0FFFFFFF, 0x40000000, 28

Section = collections.namedtuple("Section", "name address contents references")


class File:
    """The sections and symbols of an object or image."""

    def __init__(self, path):
        self.path, self.bytes, self.sections, self.symbols, self.chains = path, open(path, "rb").read(), [], [], None
        self.base, at = 0, 32
        for _ in range(struct.unpack_from("<I", self.bytes, 16)[0]):
            command, size = struct.unpack_from("<II", self.bytes, at)
            if command == 0x19:
                if self.bytes[at + 8 : at + 24].rstrip(b"\0") == b"__TEXT":
                    self.base = struct.unpack_from("<Q", self.bytes, at + 24)[0]
                for row in range(at + 72, at + 72 + 80 * struct.unpack_from("<I", self.bytes, at + 64)[0], 80):
                    self.sections.append(self.section(row))
            elif command == 2:
                rows, count, names = struct.unpack_from("<III", self.bytes, at + 8)
                for row in range(rows, rows + 16 * count, 16):
                    name, kind, section, _, value = struct.unpack_from("<IBBHQ", self.bytes, row)
                    self.symbols.append((self.text(names + name), section if kind & 0xE == 0xE else 0, value))
            elif command == 0x80000034:
                self.chains = struct.unpack_from("<I", self.bytes, at + 8)[0]
            at += size

    def text(self, at):
        return self.bytes[at : self.bytes.index(b"\0", at)].decode()

    def section(self, row):
        name, address, length, offset, _, first, count, flags = struct.unpack_from("<16s16xQQ5I", self.bytes, row)
        contents = bytes(length) if flags & 0xFF == 1 else self.bytes[offset : offset + length]
        references = [struct.unpack_from("<iI", self.bytes, first + 8 * i) for i in range(count)]
        return Section(name.rstrip(b"\0").decode(), address, contents, references)

    def number(self, address, size):
        section = next(s for s in self.sections if s.address <= address < s.address + len(s.contents))
        return int.from_bytes(section.contents[address - section.address :][:size], "little")


class Part:
    """The bytes of an object from one symbol to the next, and the names that its references have, by their places."""

    def __init__(self, file, section, start, end):
        start, end = start - section.address, end - section.address
        self.contents, self.names, self.mask = section.contents[start:end], {}, bytearray(b"\xff" * (end - start))
        for at, row in section.references:
            # a number that stands before another relocation has no field
            if start <= at < end and row >> 28 in FIELDS:
                self.names[at - start] = (row >> 28, file.symbols[row & 0xFFFFFF][0])
                self.mask[at - start : at - start + 4] = struct.pack("<I", ~FIELDS[row >> 28] & 0xFFFFFFFF)

    def is_in(self, contents):
        return len(contents) == len(self.mask) and all(
            (one ^ other) & bits == 0 for one, other, bits in zip(contents, self.contents, self.mask))


def parts_of(file, name):
    """The parts of a section of an object by their addresses, each with its names."""
    number, section = next((n, s) for n, s in enumerate(file.sections, 1) if s.name == name)
    names = collections.defaultdict(list)
    for symbol, at, value in file.symbols:
        if at == number:
            names[value].append(symbol)
    starts = sorted(names)
    return {start: (names[start], Part(file, section, start, end))
            for start, end in zip(starts, [*starts[1:], section.address + len(section.contents)])}


def unwind_text(objdump, path):
    ran = subprocess.run([objdump, "--macho", "--unwind-info", path], check=True, capture_output=True, text=True)
    return ran.stdout.splitlines()


def entries_of(objdump, path):
    """The entries of an object by their starts: length, encoding, and perhaps the personality's name and the lsda."""
    entries = []
    for line in unwind_text(objdump, path):
        found = re.match(r"\s+(start|length|compact encoding|personality function|LSDA):\s+(0x[0-9a-f]+)\s*(\S*)", line)
        if line.strip().startswith("Entry at offset"):
            entries.append({})
        elif found:
            entries[-1][found[1]] = found[3] if found[1] == "personality function" else int(found[2], 16)
    return {entry["start"]: entry for entry in entries}


class Image(File):
    def __init__(self, objdump, path):
        super().__init__(path)
        self.rows, self.lsdas, self.slots, self.end = [], {}, {}, 0
        for line in unwind_text(objdump, path):
            if found := re.match(r"\s+\[\d+\]: function offset=(\w+), encoding(?:\[\d+\])?=(\w+)$", line):
                self.rows.append((int(found[1], 16), int(found[2], 16)))
            elif found := re.match(r"\s+\[\d+\]: function offset=(\w+), LSDA offset=(\w+)$", line):
                self.lsdas[int(found[1], 16)] = int(found[2], 16)
            elif found := re.match(r"\s+\[\d+\]: function offset=(\w+), 2nd level page offset=", line):
                # the last one is the end of what is told
                self.end = int(found[1], 16)
            elif found := re.match(r"\s+personality\[(\d+)\]: (\w+)$", line):
                self.slots[int(found[1])] = int(found[2], 16)
        self.binds = {}
        if self.chains is None:
            ran = subprocess.run([objdump, "--macho", "--bind", path], check=True, capture_output=True, text=True)
            for words in (line.split() for line in ran.stdout.splitlines()):
                if words[3:4] == ["pointer"]:
                    self.binds[int(words[2], 16)] = words[6]

    def bound(self, address):
        """The name to which the loader binds a slot."""
        if self.chains is None:
            return self.binds[address]
        _, _, imports, names, _, kind, _ = struct.unpack_from("<7I", self.bytes, self.chains)
        word = self.number(address, 8)
        assert word >> 63, f"{self.path}: the slot at {address:#x} isn't bound"
        at = self.chains + imports + {1: 4, 2: 8, 3: 16}[kind] * (word & 0xFFFFFF)
        name = struct.unpack_from("<I", self.bytes, at)[0] >> 9 if kind < 3 else struct.unpack_from("<Q", self.bytes, at)[0] >> 32
        return self.text(self.chains + names + name)

    def search(self, part):
        """The address of a function's bytes, or None: they stand in the code once or not at all."""
        text = next(s for s in self.sections if s.name == "__text")
        size = len(part.contents)
        found = [at for at in range(0, len(text.contents) - size + 1, 4) if part.is_in(text.contents[at : at + size])]
        assert len(found) < 2, f"{self.path}: the same bytes stand at {found}"
        return text.address + found[0] if found else None

    def row_of(self, address):
        """The row that covers an address: its start and its encoding, which is 0 before the first and from the end on."""
        rows = [row for row in self.rows if row[0] <= address - self.base < self.end]
        return max(rows, default=(0, 0))


def check_handler(image, name, function, encoding, entry, tables):
    """The personality and the lsda of a function, as the object's entry has them."""
    person = encoding >> PERSONALITY & 3
    assert (person != 0) == ("personality function" in entry), f"{image.path}: the personality of {name}"
    if person:
        bound = image.bound(image.base + image.slots[person])
        assert bound == entry["personality function"], f"{image.path}: {name} has the personality {bound}"
    assert bool(encoding & HAS_LSDA) == ("LSDA" in entry), f"{image.path}: whether {name} has an lsda"
    if "LSDA" not in entry:
        return 0
    _, part = tables[entry["LSDA"]]
    there = image.base + image.lsdas[function - image.base]
    contents = bytes(image.number(there + at, 1) for at in range(len(part.contents)))
    assert part.is_in(contents), f"{image.path}: the lsda of {name} is other than the object's"
    for at, (kind, goal) in part.names.items():
        assert kind == TO_SLOT
        slot = there + at + struct.unpack_from("<i", contents, at)[0]
        assert image.bound(slot) == goal, f"{image.path}: the lsda of {name} at {at} leads to {image.bound(slot)}"
    return 1


def check(objdump, path, objects):
    """Checks an image, and answers its functions with the encoding of each of their instructions."""
    image, told, places, handlers = Image(objdump, path), {}, {}, 0
    for name in objects:
        file, entries = File(name), entries_of(objdump, name)
        tables = parts_of(file, "__gcc_except_tab")
        for start, (names, part) in parts_of(file, "__text").items():
            function = image.search(part)
            if function is None:
                continue
            shown, entry = f"{name}:{names[-1]}", entries.get(start, {"length": 0, "compact encoding": 0})
            places.update(dict.fromkeys(names, function))
            found = []
            for at in range(0, len(part.contents), 4):
                row, encoding = image.row_of(function + at)
                wanted = entry["compact encoding"] if at < entry["length"] else 0
                assert encoding & ENCODING == wanted & ENCODING, f"{path}: {shown} at {at:#x} has {encoding:#x}"
                assert not encoding & HAS_LSDA or row == function - image.base, f"{path}: the row of {shown} starts elsewhere"
                found.append(encoding & ENCODING)
            handlers += check_handler(image, shown, function, image.row_of(function)[1], entry, tables)
            told[shown] = found
    assert handlers == len(image.lsdas), f"{path}: {len(image.lsdas)} lsdas, of which {handlers} are functions' of the objects"
    named = [(name, value) for name, section, value in image.symbols if section and name in places]
    for name, value in named:
        assert places[name] == value, f"{path}: {name} is found at {places[name]:#x} and stands at {value:#x}"
    print(f"{path}: {len(told)} functions in {len(image.rows)} rows, {handlers} lsdas, {len(image.slots)} personalities; "
          f"{len(named)} places are those of its symbols")
    return told


def main(objdump, *paths):
    objects, images = paths[: paths.index("--")], paths[paths.index("--") + 1 :]
    answers = [check(objdump, path, objects) for path in images]
    for path, answer in zip(images[1:], answers[1:]):
        for name in sorted(answer.keys() | answers[0].keys()):
            assert answers[0].get(name) == answer.get(name), f"{name} isn't the same in {images[0]} and {path}"


main(*sys.argv[1:])

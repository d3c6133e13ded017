"""What an image has of the objects of make_mixed_objects.py, and where references lead in it, whatever its layout."""
import struct
from array import array
from pathlib import Path

from make_mixed_objects import (
    DATUM_SIZE, FIRST_POINTER, FUNCTION_SIZE, LIBRARY_CALL, OTHER_CALL, OWN_CALL, OWN_PAGE, SECOND_POINTER, SLOT_OFFSET,
    SLOT_PAGE, STRING_PAGE)
from make_unwound_objects import LSDA_SIZE

PTR_64, PTR_64_OFFSET, IMPORT = 2, 6, 1
REGULAR, COMPRESSED = 2, 3
# the highest byte of `ldr x, [x]` with an offset, and the six highest bits of `bl`
LDR_64, BL = 0xF9, 0x25


def commands_of(image):
    at = 32
    for _ in range(struct.unpack_from("<I", image, 16)[0]):
        command, size = struct.unpack_from("<II", image, at)
        yield command, at
        at += size


class Image:
    """The sections by name, each with its address and bytes, and the fixups by address, each the address to which it leads
    or the library's ordinal and the name that the loader binds, with the addend."""

    def __init__(self, path):
        image = Path(path).read_bytes()
        self.sections, self.fixups, self.segments, chains = {}, {}, [], None
        for command, at in commands_of(image):
            if command == 0x19:
                self.segments.append(struct.unpack_from("<QQQ", image, at + 24))
                for section in range(at + 72, at + 72 + 80 * struct.unpack_from("<I", image, at + 64)[0], 80):
                    address, length, offset = struct.unpack_from("<QQI", image, section + 32)
                    self.sections[image[section : section + 16].rstrip(b"\0")] = (address, image[offset : offset + length])
            elif command == 0x80000034:
                chains = struct.unpack_from("<I", image, at + 8)[0]
        self.base = next(address for address, size, offset in self.segments if offset == 0 and address)
        if chains is not None:
            self.read_chains(image, chains)
        self.text, self.code = self.sections[b"__text"]
        self.data, self.contents = self.sections[b"__data"]
        self.words = array("I", self.code)

    def read_chains(self, image, at):
        """The chains of dyld_chained_fixups_header, as fixup-chains.h has it."""
        _, starts, imports, names, count, form, _ = struct.unpack_from("<7I", image, at)
        assert form == IMPORT
        bound = []
        for row in struct.unpack_from(f"<{count}I", image, at + imports):
            name = at + names + (row >> 9)
            bound.append((row & 0xFF, image[name : image.index(b"\0", name)]))
        for segment, (address, _, offset) in enumerate(self.segments):
            start = struct.unpack_from("<I", image, at + starts + 4 + 4 * segment)[0]
            if start:
                start += at + starts
                page_size, form, _, _, pages = struct.unpack_from("<HHQIH", image, start + 4)
                base_of_target = {PTR_64: 0, PTR_64_OFFSET: self.base}[form]
                for page, first in enumerate(struct.unpack_from(f"<{pages}H", image, start + 22)):
                    place = page * page_size + first
                    while first != 0xFFFF:
                        word = struct.unpack_from("<Q", image, offset + place)[0]
                        if word >> 63:
                            self.fixups[address + place] = (*bound[word & 0xFFFFFF], word >> 24 & 0xFF)
                        else:
                            self.fixups[address + place] = base_of_target + (word & 0xF_FFFF_FFFF)
                        step = word >> 51 & 0xFFF
                        if step == 0:
                            break
                        place += 4 * step

    def meaning(self, led):
        """A place by its section: in the code and the data, which stand in the objects' order, by its offset, and in
        strings by the rest of the string."""
        if isinstance(led, tuple):
            return led
        for start, contents, name in ((self.text, self.code, "code"), (self.data, self.contents, "data")):
            if start <= led < start + len(contents):
                return name, led - start
        start, contents = self.sections[b"__cstring"]
        assert start <= led < start + len(contents), f"{led:#x} is in no section of the objects"
        return contents[led - start : contents.index(b"\0", led - start)]

    def in_page(self, page, low, at):
        """What an `adrp` at an address and an offset in a page lead to: through a slot, where the latter loads."""
        pages = (page >> 5 & 0x7FFFF) << 2 | page >> 29 & 3
        pages -= (pages & 1 << 20) << 1
        led = (at >> 12) + pages << 12
        offset = low >> 10 & 0xFFF
        return self.fixups[led + 8 * offset] if low >> 24 == LDR_64 else led + offset

    def called(self, word, at):
        """What a `bl` at an address leads to: through a stub, where it leads to one."""
        led = at + 4 * ((word & 0x3FFFFFF) - ((word & 1 << 25) << 1))
        start, stubs = self.sections[b"__stubs"]
        if not start <= led < start + len(stubs):
            return led
        page, low, _ = struct.unpack_from("<3I", stubs, led - start)
        return self.in_page(page, low, led)


    def encodings(self):
        """The rows of `__unwind_info`, each an address and the encoding from there on, and the addresses of language-specific
        data by those of their functions, as compact_unwind_encoding.h has them."""
        if b"__unwind_info" not in self.sections:
            return [], {}
        _, info = self.sections[b"__unwind_info"]
        _, common_at, common, _, _, index_at, pages = struct.unpack_from("<7I", info)
        index = [struct.unpack_from("<3I", info, index_at + 12 * i) for i in range(pages)]
        rows = []
        for first, at, _ in index[:-1]:
            kind, rows_at, count = struct.unpack_from("<I2H", info, at)
            if kind == REGULAR:
                rows += struct.iter_unpack("<2I", info[at + rows_at : at + rows_at + 8 * count])
                continue
            assert kind == COMPRESSED
            own_at, own = struct.unpack_from("<2H", info, at + 8)
            held = struct.unpack_from(f"<{common}I", info, common_at) + struct.unpack_from(f"<{own}I", info, at + own_at)
            rows += ((first + (row & 0xFFFFFF), held[row >> 24])
                     for row in struct.unpack_from(f"<{count}I", info, at + rows_at))
        lsdas = dict(struct.iter_unpack("<2I", info[index[0][2] : index[-1][2]]))
        return rows, {self.base + function: self.base + lsda for function, lsda in lsdas.items()}

    def unwinds(self):
        """Of each function the encoding, and the language-specific data or nothing."""
        rows, lsdas = self.encodings()
        start, tables = self.sections.get(b"__gcc_except_tab", (0, b""))
        at, told = -1, []
        for function in range(self.text, self.text + len(self.code), FUNCTION_SIZE):
            while at + 1 < len(rows) and self.base + rows[at + 1][0] <= function:
                at += 1
            lsda = lsdas.get(function)
            told.append((rows[at][1] if at >= 0 else 0, lsda and tables[lsda - start : lsda - start + LSDA_SIZE]))
        return told


def stays_of(path):
    """Which functions an image has, each by the number of the datum whose address it takes, with what unwinds it, and the
    numbers of the data."""
    image = Image(path)
    functions, data = [], range(0, len(image.contents) // DATUM_SIZE * DATUM_SIZE, DATUM_SIZE)
    for first in range(0, len(image.words), FUNCTION_SIZE // 4):
        page, low = image.words[first + OWN_PAGE : first + OWN_PAGE + 2]
        datum = image.in_page(page, low, image.text + 4 * (first + OWN_PAGE)) - image.data
        functions.append(image.contents[datum : datum + 8])
    return functions, image.unwinds(), [image.contents[at : at + 8] for at in data]


def meanings_of(path):
    """Which functions and data an image has, and where each reference of the code leads and each pointer of the data."""
    image = Image(path)
    told = []
    for first in range(0, len(image.words), FUNCTION_SIZE // 4):
        words = image.words[first : first + FUNCTION_SIZE // 4]
        at = image.text + 4 * first
        for page in (OWN_PAGE, SLOT_PAGE, STRING_PAGE):
            told.append(image.meaning(image.in_page(words[page], words[page + 1], at + 4 * page)))
        for call in (OWN_CALL, OTHER_CALL, LIBRARY_CALL):
            if words[call] >> 26 == BL:
                told.append(image.meaning(image.called(words[call], at + 4 * call)))
    for at in range(0, len(image.contents), DATUM_SIZE):
        for pointer in (FIRST_POINTER, SECOND_POINTER):
            led = image.fixups.get(image.data + at + pointer)
            told.append(None if led is None else image.meaning(led))
    return stays_of(path), told

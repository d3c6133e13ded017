"""Compares images of the same objects by what their references lead to: compare.py OBJDUMP NM OBJECT.. -- IMAGE..

Each image is walked from its entry along the references that the objects' relocations tell. Where a reference leads into
the image, the symbol that it names has to stand: at one place for all references, with the object's bytes, apart from all
others. A definition that the loader is to look up by its name is looked for by its bytes. So each place has a name,
whatever the layout; where `llvm-nm` tells a symbol's place, it is that one. Fixups are those that
`llvm-objdump --macho --dyld-info` lists, each of which has to be a pointer's of an object or a slot's that is used.

Compared is where each pointer, branch, address in code, load through a slot and thread-local variable leads, by the symbol
in which it stands and the offset there: to a symbol of the image and how far behind it, or to a name that the loader binds,
in which library, and how far behind that. Whether a stub or a slot stands between makes no difference.
"""
import collections
import struct
import subprocess
import sys

UNSIGNED, SUBTRACTOR, BRANCH, PAGE, PAGEOFF, GOT_PAGE, GOT_PAGEOFF, _, TLVP_PAGE, TLVP_PAGEOFF, ADDEND = range(11)
PAGES = {PAGEOFF: PAGE, GOT_PAGEOFF: GOT_PAGE, TLVP_PAGEOFF: TLVP_PAGE}
WORDS = {UNSIGNED: "pointers", BRANCH: "branches", PAGEOFF: "addresses", GOT_PAGEOFF: "loads of addresses",
         TLVP_PAGEOFF: "thread-local variables"}
# the bits of a word that a linker writes; it may make an addition of the load of an address
FIELDS = {BRANCH: 0x03FFFFFF, PAGEOFF: 0x003FFC00, GOT_PAGEOFF: 0xFFFFFC00, TLVP_PAGEOFF: 0xFFFFFC00}
FIELDS.update(dict.fromkeys(PAGES.values(), 0x60FFFFE0))
ZEROFILL, THREAD_DATA, THREAD_ZEROFILL, THREAD_VARIABLES = 1, 0x11, 0x12, 0x13
LITERALS = (2, 3, 4, 0xE)
WEAK, MAY_BE_HIDDEN = 0x80, 0xC0

Section = collections.namedtuple("Section", "name kind address contents relocations")
Symbol = collections.namedtuple("Symbol", "name external section flags value")
Reference = collections.namedtuple("Reference", "at kind goal minus addend size")


def signed(number, bits):
    return number - (number >> (bits - 1) << bits)


def read(path):
    """The sections and symbols of an object or image, and the address at which a program begins."""
    file = open(path, "rb").read()
    sections, symbols, entry, base, at = [], [], None, 0, 32
    for _ in range(struct.unpack_from("<I", file, 16)[0]):
        command, size = struct.unpack_from("<II", file, at)
        if command == 0x19:
            if file[at + 8 : at + 24].rstrip(b"\0") == b"__TEXT":
                base = struct.unpack_from("<Q", file, at + 24)[0]
            for row in range(at + 72, at + 72 + 80 * struct.unpack_from("<I", file, at + 64)[0], 80):
                name, address, length, offset, _, first, count, flags = struct.unpack_from("<16s16xQQ5I", file, row)
                kind = flags & 0xFF
                contents = bytes(length) if kind in (ZEROFILL, THREAD_ZEROFILL) else file[offset : offset + length]
                entries = [struct.unpack_from("<iI", file, first + 8 * i) for i in range(count)]
                sections.append(Section(name.rstrip(b"\0").decode(), kind, address, contents, entries))
        elif command == 2:
            rows, count, names = struct.unpack_from("<III", file, at + 8)
            for i in range(count):
                name, kind, section, flags, value = struct.unpack_from("<IBBHQ", file, rows + 16 * i)
                name = file[names + name : file.index(b"\0", names + name)].decode()
                symbols.append(Symbol(name, kind & 1, section, flags, value))
        elif command == 0x80000028:
            entry = base + struct.unpack_from("<Q", file, at + 8)[0]
        at += size
    return sections, symbols, entry


class Atom:
    """A definition of an object, with the flags of its symbol."""

    def __init__(self, name, flags, section, kind, contents):
        self.name, self.section, self.kind, self.contents, self.references = name, section, kind, contents, []
        self.weak, self.may_be_hidden = bool(flags & WEAK), flags & MAY_BE_HIDDEN == MAY_BE_HIDDEN

    def is_in(self, contents):
        """Whether bytes are the atom's, but for the bits that a linker writes."""
        mask = bytearray(b"\xff" * len(self.contents))
        for at, kind, _, _, _, size in self.references:
            bits = FIELDS.get(kind, (1 << 8 * size) - 1)
            mask[at : at + size] = (~bits & (1 << 8 * size) - 1).to_bytes(size, "little")
        return len(contents) == len(mask) and all(
            (one ^ other) & bits == 0 for one, other, bits in zip(contents, self.contents, mask))


def references_of(section, names):
    """The references of a section by their places in it; `names` are those of the symbols."""
    addend, minus = 0, None
    for at, row in section.relocations:
        target, size, kind = row & 0xFFFFFF, 1 << (row >> 25 & 3), row >> 28
        if kind == ADDEND:
            addend = signed(target, 24)
        elif kind == SUBTRACTOR:
            minus = names[target]
        else:
            assert row >> 27 & 1, f"{section.name}: the relocation at {at:#x} names a section"
            if kind == UNSIGNED:
                addend = signed(int.from_bytes(section.contents[at : at + size], "little"), 8 * size)
            yield Reference(at, kind, names[target], minus, addend, size)
            addend, minus = 0, None


def atoms_of(path):
    """The atoms of an object, common symbols among them. A symbol that others don't see has its file's name in its own."""
    sections, symbols, _ = read(path)
    names = [symbol.name if symbol.external else f"{path}:{symbol.name}" for symbol in symbols]
    found = [Atom(name, 0, "__common", ZEROFILL, bytes(symbol.value))
             for name, symbol in zip(names, symbols) if not symbol.section and symbol.value]
    parts = []
    for number, section in enumerate(sections, 1):
        if section.name == "__compact_unwind":
            # what it tells isn't compared here
            continue
        inside = sorted((symbol.value - section.address, not symbol.name.startswith("ltmp"), at)
                        for at, symbol in enumerate(symbols) if symbol.section == number)
        # where the assembler's own name of a section stands beside another one, both mean the latter
        starts = {place: at for place, _, at in inside}
        for place, _, at in inside:
            names[at] = names[starts[place]]
        for (start, at), end in zip(starts.items(), [*list(starts)[1:], len(section.contents)]):
            atom = Atom(names[at], symbols[at].flags, section.name, section.kind, section.contents[start:end])
            parts.append((section, start, end, atom))
    for section, start, end, atom in parts:
        atom.references = [reference._replace(at=reference.at - start) for reference in references_of(section, names)
                           if start <= reference.at < end]
    return found + [atom for _, _, _, atom in parts]


def chosen(paths):
    """The definition of each name that a linker takes: the first one that is neither weak nor common, the first of the
    largest common symbols, or the first weak one."""
    candidates = collections.defaultdict(list)
    for atom in [atom for path in paths for atom in atoms_of(path) if atom.contents]:
        common = atom.section == "__common"
        candidates[atom.name].append(((atom.weak, common, -len(atom.contents) * common), atom))
    return {name: min(ranked, key=lambda pair: pair[0])[1] for name, ranked in candidates.items()}


class Image:
    def __init__(self, path, objdump):
        self.path, self.fixups, self.used, self.places = path, {}, set(), {}
        self.sections, _, self.entry = read(path)
        self.template = min((s.address for s in self.sections if s.kind in (THREAD_DATA, THREAD_ZEROFILL)), default=None)
        listed = subprocess.run([objdump, "--macho", "--dyld-info", path], capture_output=True, text=True, check=True)
        for words in (line.split() for line in listed.stdout.splitlines()):
            if words[4:5] == ["rebase"]:
                self.fixups[int(words[2], 16)] = int(words[5], 16)
            elif words[4:5] == ["bind"]:
                self.fixups[int(words[2], 16)] = ("bound to", " ".join(words[6:]), signed(int(words[5], 16), 64))

    def section_at(self, address):
        return next(s for s in self.sections if s.address <= address < s.address + len(s.contents))

    def contents(self, address, size):
        section = self.section_at(address)
        return section.contents[address - section.address : address - section.address + size]

    def number(self, address, size):
        return int.from_bytes(self.contents(address, size), "little")

    def fixup(self, address):
        assert address in self.fixups, f"{self.path}: no fixup at {address:#x}"
        self.used.add(address)
        return self.fixups[address]

    def in_page(self, page_at, offset_at):
        """What an `adrp` and an instruction with an offset in the page lead to, and whether the latter loads."""
        page, low = self.number(page_at, 4), self.number(offset_at, 4)
        pages = signed((page >> 5 & 0x7FFFF) << 2 | page >> 29 & 3, 21)
        load = low & 0x3B000000 == 0x39000000
        # an offset counts in the units of what is loaded
        return ((page_at >> 12) + pages << 12) + ((low >> 10 & 0xFFF) << (low >> 30 if load else 0)), load

    def led_to(self, atom, place, reference):
        """The address to which a reference leads, or what the loader binds it to."""
        at, kind, goal, minus, _, size = reference
        if kind == BRANCH:
            led = place + at + 4 * signed(self.number(place + at, 4) & 0x3FFFFFF, 26)
            if self.section_at(led).name != "__stubs":
                return led
            slot, load = self.in_page(led, led + 4)
            assert load and self.number(led + 8, 4) == 0xD61F0200, f"{self.path}: no stub at {led:#x}"
            return self.fixup(slot)
        if kind in PAGES:
            page_at = max(other.at for other in atom.references
                          if (other.kind, other.goal) == (PAGES[kind], goal) and other.at < at)
            led, load = self.in_page(place + page_at, place + at)
            return self.fixup(led) if load and kind != PAGEOFF else led
        if minus:
            return self.places[minus] + signed(self.number(place + at, size), 8 * size)
        if atom.kind == THREAD_VARIABLES and place + at not in self.fixups:
            return self.template + self.number(place + at, size)
        return self.fixup(place + at)

    def search(self, atom):
        """The first place in a section of its name with the bytes of an atom where no other one stands."""
        for section in self.sections:
            for place in range(section.address, section.address + len(section.contents)):
                if section.name == atom.section and not self.is_taken(place, atom) and atom.is_in(
                        self.contents(place, len(atom.contents))):
                    return place
        raise AssertionError(f"{self.path}: {atom.name} isn't in the image")

    def is_taken(self, place, atom):
        return any(place < start + size and start < place + len(atom.contents) for start, size in self.taken.items())

    def stands(self, atom):
        """Tests the bytes of an atom at its place, and that it stands apart from others that aren't literals."""
        place, size = self.places[atom.name], len(atom.contents)
        assert atom.is_in(self.contents(place, size)), f"{self.path}: {atom.name} isn't at {place:#x}"
        if atom.kind not in LITERALS:
            assert not self.is_taken(place, atom), f"{self.path}: {atom.name} stands at {place:#x} over another"
            self.taken[place] = size

    def walk(self, atoms):
        """Finds the place of each atom, and answers where each reference leads, by the atom and the offset there."""
        # of two that no address leads to and that are alike but for their fields, either may be taken for the other
        told, self.taken, rest = {}, {}, sorted(atoms, key=lambda name: -len(atoms[name].contents))
        self.places["_main"], todo = self.entry, ["_main"]
        while todo or rest:
            name = todo.pop() if todo else rest.pop(0)
            atom = atoms[name]
            if atom.name in told:
                continue
            if name not in self.places:
                self.places[name] = self.search(atom)
            self.stands(atom)
            told[name] = ()
            for reference in atom.references:
                if reference.kind in PAGES.values():
                    continue
                led = self.led_to(atom, self.places[name], reference)
                goal = reference.goal
                if not isinstance(led, tuple):
                    led -= reference.addend
                    assert self.places.setdefault(goal, led) == led, \
                        f"{self.path}: {name} at {reference.at} isn't led to {goal}"
                    todo.append(goal)
                    led = ("at", goal, reference.addend)
                else:
                    assert led[1].split()[1] == goal and led[2] == reference.addend, \
                        f"{self.path}: {name} at {reference.at} is {led}, not {goal}"
                    if goal in atoms and atoms[goal].may_be_hidden:
                        # what may be hidden is there, and is looked up where ld64.lld hides it
                        led = ("at", goal, reference.addend)
                told[name, reference.at] = (WORDS[reference.kind], *led)
        assert self.used == set(self.fixups), f"{self.path}: fixups that no reference has"
        return {key: led for key, led in told.items() if led}


def places_by_nm(nm, path):
    """The places of symbols, by their names."""
    places = collections.defaultdict(set)
    for line in subprocess.run([nm, path], capture_output=True, text=True, check=True).stdout.splitlines():
        place, kind, name = line.rsplit(None, 2) if line[:1] != " " else ("0", "U", "")
        if kind != "U":
            places[name].add(int(place, 16))
    return places


def main(objdump, nm, *paths):
    objects, images = paths[: paths.index("--")], paths[paths.index("--") + 1 :]
    atoms = chosen(objects)
    answers = []
    for path in images:
        image = Image(path, objdump)
        answers.append(image.walk(atoms))
        symbols = places_by_nm(nm, path)
        for name, place in image.places.items():
            there = symbols.get(name.split(":")[-1], {place})
            assert place in there, f"{path}: {name} is found at {place:#x}, and llvm-nm says {there}"
        counts = collections.Counter(led[0] for led in answers[-1].values())
        bound = sum(led[1] == "bound to" for led in answers[-1].values())
        told = len({name.split(":")[-1] for name in image.places} & set(symbols))
        print(f"{path}: {', '.join(f'{count} {word}' for word, count in sorted(counts.items()))} lead where they are to, "
              f"{bound} of them by the loader; of {len(image.places)} places llvm-nm tells {told}")
    for path, answer in zip(images[1:], answers[1:]):
        for key in sorted(answer.keys() | answers[0].keys(), key=str):
            one, other = answers[0].get(key), answer.get(key)
            assert one == other, f"{key}: {images[0]} has {one}, {path} has {other}"


main(*sys.argv[1:])

#!/usr/bin/env python3
"""Compares where fixups stand with LLVM's account of an image: `llvm_fixups.py [VERSION]`.

Links an object of clang's by `ld64.lld-VERSION` with chained fixups (16 unless told otherwise; 15 is the first that
makes them), turns its pointers from DYLD_CHAINED_PTR_64 into DYLD_CHAINED_PTR_64_OFFSET, as macOS 12 has them, and asks
`call_times image` of each place of 8 bytes in the writable segments, alone, what stands there. `llvm-objdump-VERSION
--macho --dyld-info` has to list the same rebases and binds. `speed_calls.py` says how `call_times` is built.
"""
import re
import struct
import subprocess
import sys
import tempfile
from pathlib import Path

from speed_calls import command

BASE = 0x1_0000_0000

SOURCE = """
.section __TEXT,__text,regular,pure_instructions
.globl _main
.p2align 2
_main:
  adrp x1, _puts@GOTPAGE
  ldr x1, [x1, _puts@GOTPAGEOFF]
  ret
.section __DATA,__data
.globl _data
.p2align 3
_data:
  .quad _main, _data+8, _puts, 7, _environ+3, 0, _end
  .space 16384
_end:
  .quad _puts, _data, 1
"""

STUB = """--- !tapi-tbd
tbd-version: 4
targets: [ arm64-macos ]
install-name: '/usr/lib/libSystem.B.dylib'
exports:
  - targets: [ arm64-macos ]
    symbols: [ _puts, _environ, dyld_stub_binder ]
...
"""


def link(folder, version):
    """The path of an image with chained fixups."""
    (folder / "a.s").write_text(SOURCE)
    (folder / "lib.tbd").write_text(STUB)
    subprocess.run(["clang", "-target", "arm64-apple-macos12", "-c", "a.s", "-o", "a.o"], cwd=folder, check=True)
    subprocess.run([f"ld64.lld-{version}", "-arch", "arm64", "-platform_version", "macos", "12.0", "12.0",
                    "-fixup_chains", "-o", "image", "a.o", "lib.tbd"], cwd=folder, check=True)
    return folder / "image"


def commands(image):
    """The kind and the place of each load command."""
    at = 32
    for _ in range(struct.unpack_from("<I", image, 16)[0]):
        kind, size = struct.unpack_from("<II", image, at)
        yield kind, at
        at += size


def segments(image):
    """Address, file offset and file size of each writable segment."""
    for kind, at in commands(image):
        address, _, offset, size = struct.unpack_from("<4Q", image, at + 24)
        if kind == 0x19 and struct.unpack_from("<I", image, at + 60)[0] & 2:
            yield address, offset, size


def by_offsets(image):
    """Turns addresses in rebases into offsets from the image's base, and tells so where the chains start."""
    fixups = next(struct.unpack_from("<I", image, at + 8)[0] for kind, at in commands(image) if kind == 0x80000034)
    starts = fixups + struct.unpack_from("<I", image, fixups + 4)[0]
    count = struct.unpack_from("<I", image, starts)[0]
    for place in struct.unpack_from(f"<{count}I", image, starts + 4):
        if place == 0:
            continue
        at = starts + place
        page, pointers, offset, _, pages = struct.unpack_from("<HHQIH", image, at + 4)
        assert pointers == 2, pointers
        struct.pack_into("<H", image, at + 6, 6)
        for k, start in enumerate(struct.unpack_from(f"<{pages}H", image, at + 22)):
            pointer = offset + k * page + start
            while start != 0xffff:
                word = struct.unpack_from("<Q", image, pointer)[0]
                if not word >> 63:
                    struct.pack_into("<Q", image, pointer, word - BASE)
                if not word >> 51 & 0xfff:
                    break
                pointer += 4 * (word >> 51 & 0xfff)


def told_by_llvm(path, version):
    """The kind of the fixup at each address."""
    text = subprocess.run([f"llvm-objdump-{version}", "--macho", "--dyld-info", path], check=True, capture_output=True,
                          text=True).stdout
    return {int(address, 16): kind for address, kind in
            re.findall(r"^\S+ +\S+ +(0x[0-9A-F]+) +0x[0-9A-F]+ +(rebase|bind)", text, re.M)}


def told_by_reader(path, address):
    """The kind of the fixup at an address, or None."""
    text = subprocess.run(command("image", path, address, 1), check=True, capture_output=True, text=True).stdout
    rebased, bound, _, broken = map(int, re.findall(r"\d+", text))
    assert broken == 0, text
    return "rebase" if rebased else "bind" if bound else None


def main():
    version = sys.argv[1] if len(sys.argv) > 1 else "16"
    with tempfile.TemporaryDirectory() as name:
        path = link(Path(name), version)
        image = bytearray(path.read_bytes())
        by_offsets(image)
        path.write_bytes(image)
        expected = told_by_llvm(path, version)
        assert expected, "LLVM lists no fixups"
        places = [address + k for address, _, size in segments(image) for k in range(0, size, 8)]
        near = {place for fixup in expected for place in range(fixup - 64, fixup + 72, 8)}
        wrong = [hex(place) for place in places if place in near and told_by_reader(path, place) != expected.get(place)]
        asked = sum(place in near for place in places)
        print(f"{len(expected)} fixups, {asked} places asked, {len(wrong)} differ {' '.join(wrong)}")
        return bool(wrong)


if __name__ == "__main__":
    sys.exit(main())

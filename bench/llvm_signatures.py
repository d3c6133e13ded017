#!/usr/bin/env python3
"""Compares signatures with those of LLVM: `llvm_signatures.py [VERSION]`.

Takes the images of `crates/part_tests/src/signatures/images.rt`, whose UUIDs and signatures `seal` writes, as the tests
there show. `llvm-objdump-VERSION --macho -p` (19 unless told otherwise) has to list the UUID and the place and the size
of the signature. `llvm-objcopy-VERSION` copies each image and signs the copy. Where the copy's signature stands at the
same place, it has to have the same identifier and the same fields, but for the sizes of what stands before the hashes,
which LLVM pads, and the same hash of each page whose bytes LLVM left as they were.
"""
import re
import struct
import subprocess
import sys
import tempfile
from pathlib import Path

IMAGES = Path(__file__).resolve().parent.parent / "crates/part_tests/src/signatures/images.rt"

LC_UUID, LC_CODE_SIGNATURE = 0x1b, 0x1d


def images():
    """The identifier and the bytes of each image."""
    for text in IMAGES.read_text().split("HandImage = HandImage")[1:]:
        image = b""
        for place, lines in re.findall(r"\((?:\s*)(\w+),\s*&\[(.*?)\]", text, re.S):
            image = image.ljust(int(place, 0), b"\0") + bytes.fromhex("".join(re.findall(r'"(\w+)"', lines)))
        yield re.search(r'identifier: b"(.*)"', text)[1], image


def command(image, kind):
    """The place of a load command."""
    at = 32
    for _ in range(struct.unpack_from("<I", image, 16)[0]):
        found, size = struct.unpack_from("<II", image, at)
        if found == kind:
            return at
        at += size
    sys.exit(f"an image has no load command {kind:#x}")


def place_of(image):
    """Where the signature of an image stands, and how many bytes it has."""
    return struct.unpack_from("<II", image, command(image, LC_CODE_SIGNATURE) + 8)


def told(image):
    """What has to be listed of an image: its UUID, and the place and the size of its signature."""
    uuid = image[command(image, LC_UUID) + 8 :][:16].hex().upper()
    parts = [uuid[:8], uuid[8:12], uuid[12:16], uuid[16:20], uuid[20:]]
    return ["-".join(parts), *map(str, place_of(image))]


def listed(text):
    """The same, as llvm-objdump lists it."""
    signature = text.split("LC_CODE_SIGNATURE")[1]
    return [re.search(r"uuid (\S+)", text)[1], *(re.search(rf"{name} (\d+)", signature)[1] for name in ("dataoff", "datasize"))]


def signature_of(image):
    """The fields of the code directory but for its sizes, the identifier, and the hashes of the pages."""
    at, _ = place_of(image)
    directory = at + struct.unpack_from(">5I", image, at)[4]
    fields = struct.unpack_from(">9I4B4I4Q", image, directory)
    hashes, identifier, pages = directory + fields[4], directory + fields[5], fields[7]
    name = image[identifier : image.index(b"\0", identifier)]
    return fields[:1] + fields[2:4] + fields[5:], name, [image[hashes + 32 * k :][:32] for k in range(pages)]


def pages_of(image):
    limit = place_of(image)[0]
    return [image[k : min(k + 4096, limit)] for k in range(0, limit, 4096)]


def compare(name, image, version, folder):
    """Compares an image with LLVM's account of it and with LLVM's copy. Answers what was the same."""
    (folder / "image").write_bytes(image)
    shown = subprocess.run([f"llvm-objdump-{version}", "--macho", "-p", "image"],
                           cwd=folder, capture_output=True, text=True, check=True).stdout
    if listed(shown) != told(image):
        sys.exit(f"{name}: llvm-objdump lists {listed(shown)}, and not {told(image)}")
    (folder / "copy").mkdir(exist_ok=True)
    subprocess.run([f"llvm-objcopy-{version}", "image", f"copy/{name}"], cwd=folder, check=True)
    copy = (folder / "copy" / name).read_bytes()
    if place_of(copy) != place_of(image):
        return "listed by LLVM; its copy ends elsewhere, so that its signature is another one"
    ours, theirs = signature_of(image), signature_of(copy)
    if ours[:2] != theirs[:2]:
        sys.exit(f"{name}: LLVM's signature has {theirs[:2]}, and not {ours[:2]}")
    pages = list(zip(pages_of(image), pages_of(copy), ours[2], theirs[2], strict=True))
    left = [page for page in pages if page[0] == page[1]]
    if any(one != other for _, _, one, other in left):
        sys.exit(f"{name}: LLVM hashes a page to another hash")
    return f"listed and signed by LLVM, with the same hashes of the {len(left)} pages of {len(pages)} that it left"


def main(version):
    with tempfile.TemporaryDirectory() as folder:
        for name, image in images():
            print(f"{name}: {compare(name, image, version, Path(folder))}")


if __name__ == "__main__":
    main(sys.argv[1] if len(sys.argv) > 1 else "19")

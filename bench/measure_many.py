#!/usr/bin/env python3
"""Times the link of a folder's objects by atomld and by ld64.lld: `measure_many.py ATOMLD FOLDER RUNS [OPTION]...`.

The objects are those of make_many_objects.py or, where a stub library stands beside them, of make_mixed_objects.py or
make_unwound_objects.py; both linkers are given the options. They are first run once, and their images compared: the same code
with the same calls, and each address that is taken at the same place of its section; of mixed objects, that the same
functions and data stay, that the same unwinds each function, and, where ld64.lld has chained fixups (LLVM 15 or later), that
each reference and pointer leads to the same, be it by a stub or a slot. Then each is run once in each of RUNS rounds, with
one worker and with four (ld64.lld: with as many as it takes by itself), ld64.lld with and without a signature, and beside
them the objects are copied by cp. Each round has an order of its own, so that none always follows the same one. Prints the
least and the median of seconds and of the processor's, the peak memory, and the seconds as parts of those of ld64.lld with
as many workers and no signature: of the least, of the median, and the median of the parts of each round, which a machine
whose speed drifts disturbs least; and how much memory atomld needs at most beyond the inputs and the image, in bytes a
relocation.
"""
import glob
import os
import random
import re
import shutil
import statistics
import struct
import subprocess
import sys
import tempfile
from array import array
from pathlib import Path

from make_many_objects import FUNCTION, OTHER_OFFSET, OTHER_PAGE, OWN_OFFSET, OWN_PAGE
from measure import LLD_WORDS, find_lld, run
from mixed_image import commands_of, meanings_of, stays_of

LLD_FORMS = {
    "ld64.lld, 1": ["--threads=1"],
    "ld64.lld, all": [],
    "ld64.lld, 1, no signature": ["--threads=1", "-no_adhoc_codesign"],
    "ld64.lld, all, no signature": ["-no_adhoc_codesign"],
}
ATOMLD_FORMS = {"atomld, 1": (1, "ld64.lld, 1, no signature"), "atomld, 4": (4, "ld64.lld, all, no signature")}


def sections_of(path):
    """The address and the bytes of each section of an image, by name."""
    image = Path(path).read_bytes()
    found = {}
    for section in headers_of(image):
        address, length, offset = struct.unpack_from("<QQI", image, section + 32)
        found[image[section : section + 16].rstrip(b"\0")] = (address, image[offset : offset + length])
    return found


def headers_of(file):
    """Where the headers of sections stand in an object or image."""
    for command, at in commands_of(file):
        if command == 0x19:
            yield from range(at + 72, at + 72 + 80 * struct.unpack_from("<I", file, at + 64)[0], 80)


def relocations_of(path):
    file = Path(path).read_bytes()
    return sum(struct.unpack_from("<I", file, section + 60)[0] for section in headers_of(file))


def code_of(path):
    """The code of an image without the fields of addresses, the addresses that it takes from the start of __data, and
    the data."""
    sections = sections_of(path)
    (start, code), (data_start, data) = sections[b"__text"], sections[b"__data"]
    words = array("I")
    words.frombytes(code)
    step, taken = len(FUNCTION), []
    for page_at, offset_at in ((OWN_PAGE, OWN_OFFSET), (OTHER_PAGE, OTHER_OFFSET)):
        for i, (page, offset) in enumerate(zip(words[page_at::step], words[offset_at::step])):
            pages = (page >> 5 & 0x7FFFF) << 2 | page >> 29 & 3
            pages -= (pages & 1 << 20) << 1
            from_page = start + 4 * (step * i + page_at) >> 12
            taken.append((from_page + pages << 12) + (offset >> 10 & 0xFFF) - data_start)
        words[page_at::step] = array("I", [word & 0x9F00001F for word in words[page_at::step]])
        words[offset_at::step] = array("I", [word & 0xFFC003FF for word in words[offset_at::step]])
    return words, taken, data


def same_code(read, one, other):
    """Compares what is read of two images in a process of its own: a child begins with the peak memory of its parent."""
    child = os.fork()
    if child == 0:
        os._exit(0 if read(one) == read(other) else 1)
    return os.waitstatus_to_exitcode(os.waitpid(child, 0)[1]) == 0


def lld_path():
    """ld64.lld, or the newest of its versions, or that of the newest LLVM in /usr/lib."""
    found = glob.glob("/usr/lib/llvm-*/bin/ld64.lld")
    return find_lld() or max(found, key=lambda path: int(re.search(r"llvm-(\d+)", path).group(1)), default=None)


def chains_of(lld):
    """The words for chained fixups, where ld64.lld has any."""
    told = subprocess.run([lld, "--help"], capture_output=True, text=True, check=True).stdout
    return ["-fixup_chains"] if "-fixup_chains" in told else []


def commands_for(program, lld, inputs, mixed, image, other):
    """The command of each form of both linkers, by its name."""
    commands = {
        name: [program, "-threads", str(threads), "-o", image, *inputs] for name, (threads, _) in ATOMLD_FORMS.items()}
    if lld:
        chains = chains_of(lld) if mixed else []
        for name, words in LLD_FORMS.items():
            commands[name] = [lld, *words, *chains, *LLD_WORDS, "-o", other, *inputs]
    else:
        print("ld64.lld isn't there: skipped")
    return commands


def check(commands, read, image, other, out_folder):
    """Links once by each form, and compares the images where `read` says what of them."""
    if read:
        run(commands["ld64.lld, all"])
    for name in ATOMLD_FORMS:
        run(commands[name])
        if read and not same_code(read, image, other):
            sys.exit(f"{name}: other code than that of ld64.lld")
        shutil.copy(image, f"{out_folder}/{name}")
    if len({Path(f"{out_folder}/{name}").read_bytes() for name in ATOMLD_FORMS}) != 1:
        sys.exit("the images of atomld differ by the number of workers")


def report(measured, lld, objects, beyond):
    """Prints what was measured; `beyond` are the bytes of the inputs and of the image."""
    relocations = sum(map(relocations_of, objects))
    print(f"{'':28}{'seconds':>9}{'median':>9}{'processor':>11}{'median':>9}{'peak MiB':>10}{'of lld':>8}{'median':>8}{'rounds':>8}")
    base = {name: [seconds for seconds, _, _ in results] for name, results in measured.items()}
    for name, results in measured.items():
        seconds, processor, peak = zip(*results)
        row = f"{name:28}{min(seconds):9.3f}{statistics.median(seconds):9.3f}"
        row += f"{min(processor):11.3f}{statistics.median(processor):9.3f}{statistics.median(peak):10.0f}"
        if lld and name in ATOMLD_FORMS:
            against = base[ATOMLD_FORMS[name][1]]
            row += f"{min(seconds) / min(against):8.2f}{statistics.median(seconds) / statistics.median(against):8.2f}"
            row += f"{statistics.median(one / of for one, of in zip(seconds, against)):8.2f}"
        print(row)
    for name in ATOMLD_FORMS:
        peak = statistics.median(peak for _, _, peak in measured[name]) * 2**20
        more = (peak - beyond) / relocations
        print(f"{name}: {more:.0f} bytes for each of {relocations} relocations, beyond inputs and image")


WHAT_IS_SAME = {
    code_of: "the code is", meanings_of: "what stays, what unwinds it and where references lead are",
    stays_of: "what stays and what unwinds it are"}


def main(program, folder, runs, *options):
    objects, libraries = (sorted(glob.glob(f"{folder}/*.{kind}")) for kind in ("o", "tbd"))
    size = sum(map(os.path.getsize, [*objects, *libraries]))
    inputs = [*options, *objects, *libraries]
    lld = lld_path()
    with tempfile.TemporaryDirectory() as out_folder:
        image, other = f"{out_folder}/atomld", f"{out_folder}/lld"
        commands = commands_for(program, lld, inputs, libraries, image, other)
        read = None
        if lld and not libraries:
            read = code_of
        elif lld:
            read = meanings_of if chains_of(lld) else stays_of
        copies = f"{out_folder}/copies"
        os.mkdir(copies)
        commands["cp"] = ["cp", "-t", copies, *objects, *libraries]
        measured = {name: [] for name in commands}
        check(commands, read, image, other, out_folder)
        beyond = size + os.path.getsize(image)
        order = random.Random(0)
        for _ in range(runs):
            # in turn, so that a busy moment of the machine meets all of them
            for name, words in order.sample(list(commands.items()), len(commands)):
                for path in (image, other):
                    if os.path.exists(path):
                        os.remove(path)
                measured[name].append(run(words))
    what = " ".join([Path(folder).name, *options])
    print(f"{what}: {len(objects)} objects, {size} bytes, {runs} runs, load {os.getloadavg()[0]:.1f} at the end")
    report(measured, lld, objects, beyond)
    compared = f"{WHAT_IS_SAME[read]} the same for both linkers, and " if read else ""
    print(f"{compared}the image of atomld is one for all numbers of workers")
    return 0


if __name__ == "__main__":
    if len(sys.argv) < 4:
        sys.exit(__doc__)
    sys.exit(main(sys.argv[1], sys.argv[2], int(sys.argv[3]), *sys.argv[4:]))

#!/usr/bin/env python3
"""Writes what the program link_runs has to print, from the cases that are stored beside it.

    bench/link_runs_expected.py                          writes crates/link_runs/stdout
    bench/link_runs_expected.py --add GROUP FOLDER       stores a folder of cases first
    bench/link_runs_expected.py --again WRITER [GROUP].. first stores what another linker answers to stored cases

A folder of cases has a table `cases.tsv`: after a heading, a row for each case with its name, the words of
its command line (one space between any two), the exit status, and the line on standard error, which may be
empty, with tabs between the columns. The folder of the case's name beside it has the files of the run, and
for each file that the run is to write at PATH its bytes in `PATH.expected`. These bytes are to come from
another program than the linker that is tested.

What is stored in crates/link_runs/data is the same, with GROUP/ before each name, and in place of each
`PATH.expected` its SHA-256 in `PATH.sha256`. Cases of the same group that were stored before are removed,
and the new ones stand in their place.

Where the form of images changes, the answers are to be had again from another linker of the same rules. WRITER
is a file in Python with a function `link(words, fetch)`: the words, and what gives a file's bytes by its path,
or None where there is no file. It answers the exit status, the line on standard error without its end, and the
bytes of each written file by its path. It is asked for each case of the groups, of all where none is named.
Each case whose status or line changes is told.
"""

import hashlib
import pathlib
import runpy
import shutil
import sys

CRATE = pathlib.Path(__file__).resolve().parent.parent / "crates" / "link_runs"
DATA = CRATE / "data"
HEADING = "name\twords\tstatus\tline on standard error"


def rows_of(table):
    """The rows of a table of cases: name, words, status and line."""
    lines = table.read_text().split("\n")
    return [line.split("\t") for line in lines[1:] if line]


def write_rows(rows):
    (DATA / "cases.tsv").write_text("\n".join([HEADING, *("\t".join(row) for row in rows)]) + "\n")


def words_of(column):
    return column.split(" ") if column else []


def sealed(contents):
    return hashlib.sha256(contents).hexdigest() + "\n"


def store_files(folder, stored):
    """Copies the files of a run, and keeps the digests of those that it is to write."""
    for path in sorted(folder.rglob("*")):
        place = stored / path.relative_to(folder)
        if path.is_dir():
            continue
        place.parent.mkdir(parents=True, exist_ok=True)
        if path.suffix == ".expected":
            place.with_suffix(".sha256").write_text(sealed(path.read_bytes()))
        else:
            shutil.copyfile(path, place)


def store_group(group, folder):
    """Stores a folder of cases in place of those of its group."""
    shutil.rmtree(DATA / group, ignore_errors=True)
    (DATA / group).mkdir(parents=True)
    table = DATA / "cases.tsv"
    before, after, there = [], [], False
    for row in rows_of(table) if table.exists() else []:
        if row[0].startswith(group + "/"):
            there = True
        else:
            (after if there else before).append(row)
    rows = []
    for name, *columns in rows_of(folder / "cases.tsv"):
        store_files(folder / name, DATA / group / name)
        rows.append([f"{group}/{name}", *columns])
    write_rows(before + rows + after)


def fetch_of(folder):
    """What gives the bytes of a file of a case by its path, as the program link_runs has it."""
    def fetch(path):
        file = folder / path.lstrip("/")
        if path and not path.endswith("/") and file.is_file():
            return file.read_bytes()
        parts = folder / (path.lstrip("/") + ".parts")
        if not parts.is_file():
            return None
        rows = [row.split(" ", 1) for row in parts.read_text().splitlines()]
        return b"".join((folder / name).read_bytes() * int(count) for count, name in rows)
    return fetch


def answer_again(writer, groups):
    """Stores what another linker answers to the cases of some groups."""
    link = runpy.run_path(writer)["link"]
    rows = rows_of(DATA / "cases.tsv")
    for row in rows:
        name, words, *told = row
        if groups and name.split("/")[0] not in groups:
            continue
        folder = DATA / name
        status, line, written = link(words_of(words), fetch_of(folder))
        row[2:] = [str(status), line]
        if row[2:] != told:
            print(f"{name}: {told} is now {row[2:]}")
        for stored in [*folder.rglob("*.sha256")]:
            stored.unlink()
        for path, contents in written.items():
            stored = folder / (path + ".sha256")
            stored.parent.mkdir(parents=True, exist_ok=True)
            stored.write_text(sealed(contents))
    write_rows(rows)


def written_files(name, words):
    """The files that a case is to write, each as PATH=SHA256: the image, and then any other."""
    folder = DATA / name
    digests = {}
    for path in folder.rglob("*.sha256"):
        digests[str(path.relative_to(folder).with_suffix(""))] = path.read_text().strip()
    image = "a.out"
    for option, value in zip(words, words[1:]):
        if option == "-o":
            image = value
    return [f"{path}={digests[path]}" for path in sorted(digests, key=lambda path: (path != image, path))]


def main(words):
    if len(words) == 3 and words[0] == "--add":
        store_group(words[1], pathlib.Path(words[2]))
    elif len(words) > 1 and words[0] == "--again":
        answer_again(words[1], words[2:])
    elif words:
        sys.exit(__doc__)
    output = []
    for name, words, status, line in rows_of(DATA / "cases.tsv"):
        output.append("\t".join([name, status, *filter(None, [line]), *written_files(name, words_of(words))]) + "\n")
    (CRATE / "stdout").write_text("".join(output))


main(sys.argv[1:])

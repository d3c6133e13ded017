#!/usr/bin/env python3
"""Writes main.o and static libraries into FOLDER, of whose members some are asked for.

    bench/make_archives.py FOLDER LIBRARIES MEMBERS TENTH

Each library has MEMBERS members. A member has a function of some 2 kB, and every TENTH one's calls that of the TENTH one
after it; the last of these calls the first one of the next library. `_main` calls the first one of the first library. So one
member of TENTH is needed, in as many rounds.
"""

import pathlib
import sys

from make_chain import calling, library

PADDING = b"\x1f\x20\x03\xd5" * 500


def main(folder, libraries, members, tenth):
    folder = pathlib.Path(folder)
    (folder / "main.o").write_bytes(calling(b"_main", b"_l0_f0", PADDING))
    for at in range(libraries):
        rows = []
        for i in range(members):
            after = i + tenth
            target = None
            if i % tenth == 0:
                target = b"_l%d_f%d" % (at, after) if after < members else b"_l%d_f0" % (at + 1)
                if after >= members and at + 1 == libraries:
                    target = None
            name = b"_l%d_f%d" % (at, i)
            rows.append((b"m%d.o" % i, name, calling(name, target, PADDING)))
        (folder / f"lib{at}.a").write_bytes(library(rows))


if __name__ == "__main__":
    if len(sys.argv) != 5:
        sys.exit(__doc__)
    main(sys.argv[1], *map(int, sys.argv[2:]))

#!/usr/bin/env python3
"""Makes the text of a large stub library: `make_large_stub.py OUT [SYMBOLS [LEVELS]]`.

It has SYMBOLS symbols (100,000 if not given) of some 45 bytes in flow lists of four a line, as LLVM's TextAPI writes
them, every tenth of them quoted, in documents of 5,000 symbols. With LEVELS the text is instead one of so many keys
within each other, each more indented by a space than the one around it; 46,000 of them have 2^30 bytes.
"""
import sys


def document(number, symbols):
    lines = ["--- !tapi-tbd", "tbd-version:     4", "targets:         [ x86_64-macos, arm64-macos, arm64e-macos ]",
             f"install-name:    '/usr/lib/system/liblarge{number}.dylib'", "current-version: 1345.100.2", "exports:",
             "  - targets:         [ arm64-macos, arm64e-macos ]"]
    rows = [", ".join(symbols[at:at + 4]) for at in range(0, len(symbols), 4)]
    lines.append("    symbols:         [ " + (",\n                       ".join(rows)) + " ]")
    return "\n".join(lines) + "\n"


def symbol(number):
    name = f"__ZN5large9namespace{number % 97:02}8function{number:07}Evi"
    return f"'$ld$previous${name}'" if number % 10 == 9 else name


def main(out, symbols, levels):
    with open(out, "w") as file:
        if levels:
            file.write("---\n")
            for level in range(levels):
                file.write(" " * level + "a:\n")
            return
        for number in range(0, symbols, 5000):
            file.write(document(number // 5000, [symbol(at) for at in range(number, min(number + 5000, symbols))]))
        file.write("...\n")


if __name__ == "__main__":
    main(sys.argv[1], int(sys.argv[2]) if len(sys.argv) > 2 else 100_000, int(sys.argv[3]) if len(sys.argv) > 3 else 0)

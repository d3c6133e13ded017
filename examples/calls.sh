#!/usr/bin/env bash
# Has clang assemble calls.s, links the object by the built program, and checks the image: llvm-objdump reads it, and
# its code is what clang's assembler makes of the same functions for ELF, where it puts the distances itself.
set -euo pipefail
. "$(dirname "$0")/tools.sh"
clang=$(tool clang)
objdump=$(tool llvm-objdump)
objcopy=$(tool llvm-objcopy)
[ -n "$clang" ] && [ -n "$objdump" ] && [ -n "$objcopy" ] || { echo "skipped: clang, llvm-objdump or llvm-objcopy isn't there"; exit 0; }

folder=$(mktemp -d)
trap 'rm -rf "$folder"' EXIT
cd "$folder"
"$clang" -target arm64-apple-macos11 -c "$examples/calls.s" -o calls.o
"$program" -o calls calls.o
"$objdump" --macho --all-headers -d calls | tee dump

# without what only Mach-O has
grep -Ev '^[[:space:]]*(;|\.loh|\.subsections_via_symbols|Lloh)' "$examples/calls.s" > elf.s
"$clang" -target aarch64-linux-gnu -c elf.s -o elf.o
"$objcopy" -O binary --only-section=.text elf.o text
cmp <(tail -c +457 calls | head -c "$(stat -c %s text)") text || { echo "other code than the assembler's"; exit 1; }

expect() {
    grep -Eq "$1" dump || { echo "missing: $2"; exit 1; }
}
expect '^ *entryoff 464$' 'LC_MAIN at _main, 8 bytes after the start of __text'
expect '^ *1000001d8:.*\bbl\b.*0x1000001f0$' 'the call of _add_one'
expect '^ *1000001dc:.*\bbl\b.*0x1000001c8$' 'the call of _double'
expect '^ *1000001e4:.*\bb\b.*0x1000001e8$' 'the branch to _finish'
echo "as it should be: every branch at its function, and the code is the assembler's"

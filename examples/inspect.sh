#!/usr/bin/env bash
# Links main.o by the built program and has llvm-objdump read the image: where it is entered, and what it calls.
set -euo pipefail
. "$(dirname "$0")/tools.sh"

objdump=$(tool llvm-objdump)
[ -n "$objdump" ] || { echo "skipped: llvm-objdump isn't there"; exit 0; }

folder=$(mktemp -d)
trap 'rm -rf "$folder"' EXIT
"$program" -o "$folder/main" "$examples/main.o"
"$objdump" --macho --all-headers -d "$folder/main" | tee "$folder/dump"

expect() {
    grep -Eq "$1" "$folder/dump" || { echo "missing: $2"; exit 1; }
}
# 456 is 0x1c8, the distance of __text from the image's start
expect '^ *entryoff 456$' 'LC_MAIN at the start of __text'
expect '^ *addr 0x00000001000001c8$' '__text at 0x1000001c8'
expect '^ *1000001c8:.*\bbl\b.*0x1000001d0$' 'the call of the function at 0x1000001d0'
expect '^ *cmd LC_DYLD_CHAINED_FIXUPS$' 'what tells the loader of fixups'
# of a program without any that part has 56 bytes
[ "$(stat -c %s "$folder/main")" = $((16384 + 56)) ] || { echo "missing: a file of one page and that part"; exit 1; }
echo "as it should be: entered at __text's start, and the call reaches the function behind it"

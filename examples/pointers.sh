#!/usr/bin/env bash
# Has clang compile the files of pointers/, C and C++ with strings, tables of functions and of data, a switch that answers
# strings, weak and tentative definitions, virtual functions, thread-local variables and calls into libraries, and links
# them with the two stub libraries there by the built program and by ld64.lld, with chained fixups. Then compare.py checks
# for both images that each pointer and each reference leads where the objects say, and that both linkers have the same:
# the same symbol and offset, or the same name, library and addend for the loader to bind. Fixups are read by llvm-objdump.
set -euo pipefail
. "$(dirname "$0")/tools.sh"
clang=$(newest clang) lld=$(newest ld64.lld) objdump=$(newest llvm-objdump) nm=$(newest llvm-nm)
[ -n "$clang" ] || { echo "skipped: clang isn't there"; exit 0; }
[[ -n $objdump && $("$objdump" --help) == *--chained-fixups* ]] ||
    { echo "skipped: an llvm-objdump that reads chained fixups isn't there (LLVM 16 or later)"; exit 0; }
[[ -n $lld && $("$lld" --help) == *-fixup_chains* ]] ||
    { echo "skipped: an ld64.lld that writes chained fixups isn't there (LLVM 15 or later)"; exit 0; }

folder=$(mktemp -d)
trap 'rm -rf "$folder"' EXIT
cp "$examples"/pointers/* "$folder"
cd "$folder"
objects=()
for file in main.c numbers.c shared.c shapes.cpp; do
    "$clang" -target arm64-apple-macos11 -O1 -fcommon -stdlib=libc++ -Wno-unused-command-line-argument \
        -fno-exceptions -c "$file" -o "${file%.*}.o"
    objects+=("${file%.*}.o")
done
"$program" -o image "${objects[@]}" libSystem.tbd libc++.tbd
# without hints it leaves each instruction as clang has it, but for loads of addresses that needn't be loaded
"$lld" -arch arm64 -platform_version macos 11.0 11.0 -fixup_chains -ignore_optimization_hints -o lld \
    "${objects[@]}" libSystem.tbd libc++.tbd
python3 -B compare.py "$objdump" "$nm" "${objects[@]}" -- image lld
echo "as it should be"

#!/usr/bin/env bash
# Has clang compile the files of unwinding/, C with functions that clean up and C++ that throws and catches, all with their
# entries for unwinding, and links them with the two stub libraries there by the built program and by ld64.lld, once whole
# and once with -dead_strip. Then compare.py checks for each image that what unwinds a function is what its object says, by
# what llvm-objdump reads, and that both linkers have the same functions. A frame that DWARF alone describes is refused.
set -euo pipefail
. "$(dirname "$0")/tools.sh"
clang=$(newest clang) objdump=$(newest llvm-objdump) lld=$(newest ld64.lld)
[ -n "$clang" ] && [ -n "$objdump" ] || { echo "skipped: clang or llvm-objdump isn't there"; exit 0; }

folder=$(mktemp -d)
trap 'rm -rf "$folder"' EXIT
cp "$examples"/unwinding/* "$folder"
cd "$folder"
compile() {
    "$clang" -target arm64-apple-macos11 -O1 -fexceptions -fno-stack-protector -stdlib=libc++ \
        -Wno-unused-command-line-argument -c "$1" -o "${1%.*}.o"
}
for file in main.c throws.cpp large.c; do
    compile "$file"
done
inputs=(main.o throws.o libSystem.tbd libc++.tbd)
"$program" -o image "${inputs[@]}"
"$program" -dead_strip -o stripped "${inputs[@]}"
whole=(image) reached=(stripped)
if [ -n "$lld" ]; then
    # it leaves each instruction as clang has it, but for loads of addresses that needn't be loaded
    "$lld" -arch arm64 -platform_version macos 11.0 11.0 -o lld "${inputs[@]}"
    "$lld" -arch arm64 -platform_version macos 11.0 11.0 -dead_strip -o lld-stripped "${inputs[@]}"
    whole+=(lld) reached+=(lld-stripped)
else
    echo "ld64.lld isn't there: its images aren't compared"
fi
python3 -B compare.py "$objdump" main.o throws.o -- "${whole[@]}"
python3 -B compare.py "$objdump" main.o throws.o -- "${reached[@]}"

status=0
"$program" -o refused large.o 2> line || status=$?
[ "$status:$(cat line)" = "1:atomld: large.o: unsupported: ehframe" ] || { echo "large.o: status $status, $(cat line)"; exit 1; }
[ ! -e refused ] || { echo "an image of large.o was written"; exit 1; }
echo "as it should be"

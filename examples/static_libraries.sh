#!/usr/bin/env bash
# Has clang compile the files of libraries/, puts their objects into static libraries by LLVM's tools, and one of these into
# a universal file, and links them by the built program: through -L and -l, by rounds, with all members of one library, and
# with clang as the driver. Each image is to be that of the objects by themselves which ld64.lld says that it loads of the
# same words, in the order of the inputs and their members, where ld64.lld is there.
set -euo pipefail
. "$(dirname "$0")/tools.sh"
clang=$(tool clang) archive=$(tool llvm-ar) libtool=$(tool llvm-libtool-darwin) lipo=$(tool llvm-lipo)
for name in "$clang" "$archive" "$libtool" "$lipo"; do
    [ -n "$name" ] || { echo "skipped: clang, llvm-ar, llvm-libtool-darwin or llvm-lipo isn't there"; exit 0; }
done
lld=$(tool ld64.lld)
[ -n "$lld" ] || lld=$(ls /usr/lib/llvm-*/bin/ld64.lld 2>/dev/null | sort -V | tail -n 1 || true)

folder=$(mktemp -d)
trap 'rm -rf "$folder"' EXIT
cd "$folder"
for file in main first second third unasked; do
    "$clang" -target arm64-apple-macos11 -O1 -c "$examples/libraries/$file.c" -o "$file.o"
done
"$clang" -target x86_64-apple-macos11 -O1 -c "$examples/libraries/third.c" -o other.o
mkdir lib
"$archive" --format=darwin rcs lib/libone.a first.o third.o unasked.o
"$libtool" -static -o lib/libtwo.a second.o
"$libtool" -static -o lib/libother.a other.o
"$lipo" -create lib/libone.a lib/libother.a -output lib/libboth.a

# What ld64.lld loads of these words, as the objects that they are.
loaded_by_lld() {
    "$lld" -arch arm64 -platform_version macos 11.0 11.0 -map map -o lld "$@"
    sed -n '/^# Object files/,/^# Sections/p' map | sed -nE 's/.*[(\/ ]([a-z]+\.o)\)?$/\1/p' | sort | tr '\n' ' '
}

# One link: the objects that it is to load, in their order, and its words.
same() {
    local objects=$1
    shift
    "$program" -o image "$@"
    # shellcheck disable=SC2086
    "$program" -o objects $objects
    cmp image objects
    if [ -n "$lld" ]; then
        local theirs
        theirs=$(loaded_by_lld "$@")
        [ "$theirs" = "$(tr ' ' '\n' <<< "$objects" | sort | tr '\n' ' ')" ] || { echo "ld64.lld loads $theirs"; exit 1; }
    fi
    echo "$*: $objects"
}

same "main.o first.o third.o second.o" main.o -Llib -lone -ltwo
same "main.o second.o first.o third.o" main.o lib/libtwo.a lib/libone.a
same "main.o first.o third.o second.o" main.o lib/libboth.a lib/libtwo.a
same "main.o first.o third.o unasked.o second.o" main.o -force_load lib/libone.a -Llib -ltwo
same "main.o first.o third.o unasked.o second.o" -all_load main.o -Llib -lone -ltwo
for workers in 1 2 7; do
    "$program" -threads $workers -o image main.o -Llib -lone -ltwo
    "$program" -o objects main.o first.o third.o second.o
    cmp image objects
done
"$clang" -target arm64-apple-macos11 -mlinker-version=907 --ld-path="$program" -nostdlib -o driven main.o -Llib -lone -ltwo
"$program" -platform_version macos 11.0.0 11.0.0 -o objects main.o first.o third.o second.o
cmp driven objects
[ -n "$lld" ] || echo "ld64.lld isn't there: what it loads isn't compared"
echo "as it should be"

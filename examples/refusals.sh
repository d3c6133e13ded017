#!/usr/bin/env bash
# Runs the built program where files can't be read or written and where words aren't good, and compares the exit
# status and the line on standard error with those that it promises. Standard output stays empty.
set -euo pipefail
. "$(dirname "$0")/tools.sh"

folder=$(mktemp -d)
trap 'rm -rf "$folder"' EXIT
cd "$folder"
cp "$examples/main.o" main.o
mkdir folder
cp main.o locked.o
chmod 000 locked.o
failures=0

# try STATUS LINE WORD..
try() {
    local status=0
    "$program" "${@:3}" >out.txt 2>err.txt || status=$?
    if [ "$status" != "$1" ] || [ "$(cat err.txt)" != "$2" ] || [ -s out.txt ]; then
        echo "words ${*:3}: status $status, wanted $1"
        echo "  line: $(cat err.txt)"
        echo "  wanted: $2"
        failures=$((failures + 1))
    fi
}

try 0 '' -o image main.o
[ -x image ] || { echo "the image can't be run"; failures=$((failures + 1)); }
try 0 '' main.o
cmp image a.out || failures=$((failures + 1))
try 0 '' -o /dev/null main.o
try 1 'atomld: not found: none.o' none.o
try 2 'atomld: usage: word 0: noinput'
try 2 'atomld: usage: word 2: novalue' main.o -o
try 2 'atomld: usage: word 2: unknown' main.o $'\xff'
try 2 'atomld: usage: word 1: unknown' -frob $'\xff'
try 2 'atomld: usage: word 2: unknown' -o $'\xff'
try 3 'atomld: cannot read folder' folder
[ "$(id -u)" = 0 ] || try 3 'atomld: cannot read locked.o' locked.o
try 3 'atomld: cannot write folder' -o folder main.o
try 3 'atomld: cannot write none/image' -o none/image main.o
[ ! -c /dev/full ] || try 3 'atomld: cannot write /dev/full' -o /dev/full main.o

# limits: a file of 2^30 bytes, and an object of 2^24 symbols, whose table stands behind its header and command
truncate -s 1G large.o
try 1 'atomld: limit: filebytes' large.o
truncate -s $((56 + (16 << 24) + 1)) symbols.o
printf '%b' '\xcf\xfa\xed\xfe\x0c\0\0\x01\0\0\0\0\x01\0\0\0\x01\0\0\0\x18\0\0\0\0\x20\0\0\0\0\0\0' \
    '\x02\0\0\0\x18\0\0\0\x38\0\0\0\0\0\0\x01\x38\0\0\x10\x01\0\0\0' | dd of=symbols.o conv=notrunc status=none
try 1 'atomld: limit: symbols' symbols.o

# where standard error is closed or full, the answer is the same
status=0; "$program" none.o 2>&- || status=$?
[ "$status" = 1 ] || { echo "closed standard error: status $status"; failures=$((failures + 1)); }

# words longer than a line, and where memory ends
try 1 "atomld: not found: $(printf 'x%.0s' $(seq 250)).o" "$(printf 'x%.0s' $(seq 250)).o"
status=0; (ulimit -v 40000; head -c 60000000 /dev/zero >large.o; "$program" large.o 2>err.txt) || status=$?
[ "$status:$(cat err.txt)" = '4:atomld: out of memory' ] || { echo "no memory: status $status, $(cat err.txt)"; failures=$((failures + 1)); }

[ "$failures" = 0 ] || { echo "$failures failed"; exit 1; }
echo "all as promised"

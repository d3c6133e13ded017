#!/usr/bin/env bash
# Links many objects by atomld and by ld64.lld: `bench/many_objects.sh [RUNS [ATOMLD [KIND OBJECTS BYTES]...]]`, by default 7
# runs of the program that `(cd crates/atomld && rt run)` builds. Objects of the kind `many` call each other and take
# addresses; those of `mixed` have strings, slots, pointers, weak definitions and names of a library too; those of `unwound`
# have unwind entries beside these, and are linked without and with -dead_strip, which leaves out a third of them. By default
# 100 and 1,000 of the first kind, of 5 and 50 MB together, 1,000 of the second, of 50 MB, and 200 and 1,000 of the third, of
# 10 and 50 MB.
set -euo pipefail
bench=$(cd "$(dirname "$0")" && pwd)
runs=${1:-7}
atomld=$(realpath "${2:-$bench/../crates/atomld/out/atomld}")
[ -x "$atomld" ] || { echo "build the program first: (cd crates/atomld && rt run)"; exit 1; }
shift $(($# < 2 ? $# : 2))
[ $# -gt 0 ] || set -- many 100 5000000 many 1000 50000000 mixed 1000 50000000 unwound 200 10000000 \
    unwound 1000 50000000
folder=$(mktemp -d)
trap 'rm -rf "$folder"' EXIT
while [ $# -gt 2 ]; do
    objects=$folder/$1
    mkdir "$objects"
    python3 -B "$bench/make_$1_objects.py" "$objects" "$2" "$3"
    python3 -B "$bench/measure_many.py" "$atomld" "$objects" "$runs"
    [ "$1" != unwound ] || python3 -B "$bench/measure_many.py" "$atomld" "$objects" "$runs" -dead_strip
    rm -r "${objects:?}"
    shift 3
done

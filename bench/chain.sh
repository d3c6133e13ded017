#!/usr/bin/env bash
# Links a static library of which each member asks for the next one, by atomld and by ld64.lld:
# `bench/chain.sh [MEMBERS [ATOMLD]]`, by default 10,000 members, each of which comes in a round of its own, by the program
# that `(cd crates/atomld && rt run)` builds. Prints processor and wall time and the peak memory of each.
set -euo pipefail
bench=$(cd "$(dirname "$0")" && pwd)
atomld=$(realpath "${2:-$bench/../crates/atomld/out/atomld}")
[ -x "$atomld" ] || { echo "build the program first: (cd crates/atomld && rt run)"; exit 1; }
lld=$(command -v ld64.lld || ls /usr/lib/llvm-*/bin/ld64.lld 2>/dev/null | sort -V | tail -n 1 || true)
folder=$(mktemp -d)
trap 'rm -rf "$folder"' EXIT
python3 -B "$bench/make_chain.py" "$folder" "${1:-10000}"
cd "$folder"
for workers in 1 4; do
    /usr/bin/time -f "atomld, $workers: %U + %S s, %e s, %M KiB" "$atomld" -threads $workers -o "image$workers" main.o libchain.a
done
cmp image1 image4
# ld64.lld fetches a member within the reading of the one that asks for it, so it wants a stack for all of them
[ -z "$lld" ] || (ulimit -s unlimited && /usr/bin/time -f "ld64.lld: %U + %S s, %e s, %M KiB" \
    "$lld" -arch arm64 -platform_version macos 11.0 11.0 -o lld main.o libchain.a) 2>&1 | tail -n 1

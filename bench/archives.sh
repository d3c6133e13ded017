#!/usr/bin/env bash
# Links static libraries of which a tenth of the members is asked for, by atomld and by ld64.lld:
# `bench/archives.sh [RUNS [ATOMLD [LIBRARIES MEMBERS]]]`, by default 5 runs of the program that `(cd crates/atomld && rt run)`
# builds, over 20 libraries of 500 members. Prints the least wall time, processor time and peak memory of each.
set -euo pipefail
bench=$(cd "$(dirname "$0")" && pwd)
runs=${1:-5}
atomld=$(realpath "${2:-$bench/../crates/atomld/out/atomld}")
[ -x "$atomld" ] || { echo "build the program first: (cd crates/atomld && rt run)"; exit 1; }
lld=$(command -v ld64.lld || ls /usr/lib/llvm-*/bin/ld64.lld 2>/dev/null | sort -V | tail -n 1 || true)
libraries=${3:-20}
folder=$(mktemp -d)
trap 'rm -rf "$folder"' EXIT
python3 -B "$bench/make_archives.py" "$folder" "$libraries" "${4:-500}" 10
cd "$folder"
inputs=(main.o)
for ((at = 0; at < libraries; at++)); do inputs+=("lib$at.a"); done

least() {
    local name=$1
    shift
    for ((run = 0; run < runs; run++)); do
        (ulimit -s unlimited && /usr/bin/time -f "%e %U %S %M" "$@" "${inputs[@]}") 2>&1 | tail -n 1
    done | sort -n | head -n 1 | awk -v name="$name" '{ printf "%-28s %.2f s, processor %.2f s, %d KiB\n", name, $1, $2 + $3, $4 }'
}
least "atomld, 1 worker" "$atomld" -threads 1 -o image1
least "atomld, 4 workers" "$atomld" -threads 4 -o image4
cmp image1 image4
if [ -n "$lld" ]; then
    words=(-arch arm64 -platform_version macos 11.0 11.0 -o lld)
    least "ld64.lld, 1 thread" "$lld" "${words[@]}" --threads=1
    least "ld64.lld" "$lld" "${words[@]}"
    least "ld64.lld, no signature" "$lld" "${words[@]}" -no_adhoc_codesign
fi

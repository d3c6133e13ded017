# Read by the scripts beside it: their folder is `examples`; `program` is their first argument, or the built one; and tools have
# names with or without a version.
examples=$(cd "$(dirname "${BASH_SOURCE[0]}")" && pwd)
program=${1:-$examples/../crates/atomld/out/atomld}
[ -x "$program" ] || { echo "build the program first: (cd crates/atomld && rt run)"; exit 1; }
program=$(realpath "$program")

versions() {
    compgen -c "$1" | grep -E "^$1(-[0-9]+)?$" | sort -Vu || true
}

tool() {
    versions "$1" | head -n 1
}

newest() {
    versions "$1" | tail -n 1
}

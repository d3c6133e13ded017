#!/usr/bin/env bash
# Links an object whose every word is a branch with a relocation: `bench/branches_64m.sh [BYTES [RUNS]]`,
# 64 MiB (16.8 million relocations) and 5 runs by default.
set -euo pipefail
bench=$(cd "$(dirname "$0")" && pwd)
folder=$(mktemp -d)
trap 'rm -rf "$folder"' EXIT
python3 "$bench/make_object.py" "$folder/branches.o" "${1:-67108864}" branches
python3 "$bench/measure.py" "$folder/branches.o" "${2:-5}"

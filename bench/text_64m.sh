#!/usr/bin/env bash
# Links an object with a large __text: `bench/text_64m.sh [BYTES [RUNS]]`, 64 MiB and 7 runs by default.
set -euo pipefail
bench=$(cd "$(dirname "$0")" && pwd)
folder=$(mktemp -d)
trap 'rm -rf "$folder"' EXIT
python3 "$bench/make_object.py" "$folder/text.o" "${1:-67108864}"
python3 "$bench/measure.py" "$folder/text.o" "${2:-7}"

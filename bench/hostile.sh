#!/usr/bin/env bash
# Reads objects whose parts overlap: `bench/hostile.sh`. Prints for each form the seconds, the peak memory in KiB, and
# the answer of atomld, and of ld64.lld where it is there, which is stopped after 20 seconds (status 124).
set -euo pipefail
bench=$(cd "$(dirname "$0")" && pwd)
atomld=$bench/../crates/atomld/out/atomld
lld=$(command -v ld64.lld || ls /usr/bin/ld64.lld-* 2>/dev/null | tail -1 || true)
folder=$(mktemp -d)
trap 'rm -rf "$folder"' EXIT

run() {
    local name=$1
    shift
    local status=0
    /usr/bin/env python3 - "$@" <<'PYTHON' || status=$?
import os, sys, time
start = time.monotonic()
out = os.open(os.devnull, os.O_WRONLY)
child = os.posix_spawnp(sys.argv[1], sys.argv[1:], os.environ, file_actions=[(os.POSIX_SPAWN_DUP2, out, 2)])
_, status, usage = os.wait4(child, 0)
print(f"{time.monotonic() - start:.2f} s, {usage.ru_maxrss} KiB, status {os.waitstatus_to_exitcode(status)}", end="")
PYTHON
    echo "  $name"
}

for form in names local long sections strings empty texts tables locals rising scattered; do
    python3 "$bench/make_hostile_object.py" "$folder/$form.o" "$form"
    echo "$form: $(stat -c %s "$folder/$form.o") bytes"
    run atomld "$atomld" -o "$folder/$form" "$folder/$form.o"
    if [ -n "$lld" ]; then
        run ld64.lld timeout 20 "$lld" -arch arm64 -platform_version macos 11.0 11.0 -o "$folder/$form.lld" "$folder/$form.o"
    fi
done

#!/usr/bin/env bash
# Counts the instructions of an aimed set of calls, each exactly, and prints for each exported function the greatest
# (bench/worst/main.rs). Linux on x86-64 only. With --check every call of the set is made and compared with the model, and few are
# counted.
set -euo pipefail
cd "$(dirname "${BASH_SOURCE[0]}")/.."
folder=${WIDOSHA_LIB_DIR:-target/staticlib}
out=target/bench/worst
[ "${1-}" != --check ] || out=$out-check
for each in driver_c frame_c; do
    if ! [ -f "$folder/lib$each.a" ]; then
        echo "there is no $folder/lib$each.a; tools/staticlib.sh $each builds it"
        exit 1
    fi
done
mkdir -p "$out"
"${RUSTC:-rustc}" --edition 2021 bench/worst/main.rs -A dead_code -C opt-level=3 -L "$folder" -l static=driver_c -l static=frame_c \
    -o "$out/worst"
if [ "${1-}" = --check ]; then
    exec "$out/worst" --check
fi
echo "counting takes some minutes" >&2
"$out/worst" "$out/traces.txt"
if command -v python3 >/dev/null && command -v objdump >/dev/null; then
    echo "== the same on 32 bits, by the rule of thumb of bench/split.py"
    python3 -B bench/split.py narrow "$out/worst" "$out/traces.txt"
fi

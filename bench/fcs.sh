#!/usr/bin/env bash
# Measures checksums and their check, the proved library beside a plain loop over a table in Rust, both at full optimisation: time,
# and instructions by callgrind.
set -euo pipefail
cd "$(dirname "${BASH_SOURCE[0]}")/.."
folder=${WIDOSHA_LIB_DIR:-target/staticlib}
out=target/bench/fcs
if ! [ -f "$folder/libframe_c.a" ]; then
    echo "there is no $folder/libframe_c.a; tools/staticlib.sh frame_c builds it"
    exit 1
fi
mkdir -p "$out"
"${RUSTC:-rustc}" --edition 2021 bench/fcs.rs -C opt-level=3 -C codegen-units=1 -L "$folder" -l static=frame_c -o "$out/fcs"
"$out/fcs"
echo "the ratios of one length at a time:"
"$out/fcs" --lengths

if ! command -v valgrind >/dev/null; then
    echo "instructions were not counted: valgrind is missing"
    exit 0
fi
# Instructions of each side, the loop over the frames included: they do not depend on the machine's load.
for each in "checksum fcs" "check check" "check-5 check" "long fcs"; do
    read -r kind function <<<"$each"
    for side in ours plain; do
        log=$out/$kind-$side
        counts=$(valgrind --tool=callgrind --collect-atstart=no --toggle-collect="fcs::${function}_$side" \
            --callgrind-out-file="$log.out" "$out/fcs" --count "$kind" 2>"$log.log")
        spent=$(sed -n 's/^summary: //p' "$log.out")
        if [ "${spent:-0}" -eq 0 ]; then
            echo "no instruction of fcs::${function}_$side was counted"
            exit 1
        fi
        awk -v what="$kind, $side" -v spent="$spent" -v counts="$counts" 'BEGIN {
            split(counts, of)
            printf "%s: %d instructions, %.1f for a slice, %.3f for a byte\n", what, spent, spent / of[1], spent / of[2]
        }'
    done
done

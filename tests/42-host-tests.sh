#!/bin/sh
# The host's tests: the exported library against an independent model of documents 01 and 02, through C, and the reader of
# captures on written and damaged ones. Prints the counts.
# Exit 0 passed, 77 not run (the reason is printed), anything else failed.
set -u
cd "$(dirname "$0")/.." || exit 1

if ! command -v cargo >/dev/null 2>&1; then
    echo "42-host-tests: not run, there is no cargo"
    exit 77
fi
for each in driver_c frame_c; do
    library="${WIDOSHA_LIB_DIR:-target/staticlib}/lib$each.a"
    if [ ! -f "$library" ]; then
        echo "42-host-tests: failed, there is no $library"
        exit 1
    fi
done

# All rounds, with the coverage that they are to reach.
unset WIDOSHA_ROUNDS_DIVISOR
log=$(mktemp) || exit 1
trap 'rm -f "$log"' EXIT
CARGO_TARGET_DIR=target/host cargo test --release --offline --tests -j2 --no-fail-fast \
    --manifest-path host/Cargo.toml -- --show-output >"$log" 2>&1
status=$?

if [ "$status" -ne 0 ]; then
    cat "$log"
else
    grep -E '^(random|boundaries|line|quality|slices|alignment|damaged|dma|facts|fcs|station|capture):|^  (accepted|refused)' "$log"
fi
awk '/^test result: / { passed += $4; failed += $6 }
     END { printf "42-host-tests: %d tests passed, %d failed\n", passed, failed }' "$log"
if [ "$status" -ne 0 ]; then
    echo "42-host-tests: failed, cargo test ended with $status"
    exit 1
fi
# A suite that ran nothing has not passed.
for test in random boundaries line quality slices alignment damaged dma facts fcs station capture; do
    if ! grep -q "^$test: [0-9a-z]" "$log"; then
        echo "42-host-tests: failed, $test printed no counts"
        exit 1
    fi
done

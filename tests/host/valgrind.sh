#!/bin/sh
# The host's tests with far fewer rounds under valgrind, which ends with 9 on a memory error. Not run by the gate: it takes minutes.
# The slices then stand without guard bytes, so that a read or write outside of them is a memory error.
# Exit 0 passed, 77 not run (the reason is printed), anything else failed.
set -u
cd "$(dirname "$0")/../.." || exit 1

for tool in cargo rustc valgrind; do
    if ! command -v "$tool" >/dev/null 2>&1; then
        echo "valgrind: not run, there is no $tool"
        exit 77
    fi
done

# cargo runs each test program through the runner that is set for the target.
triple=$(rustc -vV | sed -n 's/^host: //p' | tr 'a-z-' 'A-Z_')
export "CARGO_TARGET_${triple}_RUNNER=valgrind --error-exitcode=9 --leak-check=no"
export CARGO_TARGET_DIR=target/host
export WIDOSHA_ROUNDS_DIVISOR="${WIDOSHA_ROUNDS_DIVISOR:-17}"
log=$(mktemp) || exit 1
trap 'rm -f "$log"' EXIT
cargo test --release --offline --tests -j2 --no-fail-fast --manifest-path host/Cargo.toml -- --test-threads=1 --show-output \
    >"$log" 2>&1
status=$?

if [ "$status" -ne 0 ]; then
    cat "$log"
else
    grep -E '^(random|boundaries|line|slices|alignment|damaged|dma|facts|quality|fcs|station|capture):|ERROR SUMMARY' "$log"
fi
awk '/^test result: / { passed += $4; failed += $6 }
     END { printf "valgrind: %d tests passed, %d failed\n", passed, failed }' "$log"
if [ "$status" -ne 0 ]; then
    echo "valgrind: failed, cargo test ended with $status"
    exit 1
fi

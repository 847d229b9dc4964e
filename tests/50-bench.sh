#!/usr/bin/env bash
# The programs of bench/ measure what docs/BENCHMARKS.md says they do, with no word of a time: every call of the worst case's set is
# made, and returns and writes what the model of host/tests says; the parts of a call (bench/split.py) add up to all of its
# instructions; no call of those that are counted goes deeper than the bound of bench/stack.py; and a program that names every function
# holds all of the libraries.
set -euo pipefail
cd "$(dirname "${BASH_SOURCE[0]}")/.."
for each in cargo "${RUSTC:-rustc}" python3 gcc objdump nm size; do
    if ! command -v "$each" >/dev/null; then
        echo "there is no $each"
        exit 77
    fi
done
if [ "$(uname -sm)" != "Linux x86_64" ]; then
    echo "instructions are counted on x86-64 with Linux only"
    exit 77
fi
folder=${WIDOSHA_LIB_DIR:-$PWD/target/staticlib}
out=target/bench/test
mkdir -p "$out"

bash bench/worst.sh --check >"$out/worst.txt"
head -n 1 "$out/worst.txt"
for each in driver_c frame_c; do
    python3 -B bench/stack.py "$folder/lib$each.a"
done >"$out/stack.txt"
CARGO_TARGET_DIR=$PWD/target/host cargo build --quiet --manifest-path host/Cargo.toml --offline --locked --release --example bench_calls
bench=target/host/release/examples/bench_calls
"$bench" --trace >"$out/traces.txt"
python3 -B bench/split.py parts "$bench" "$out/traces.txt" >"$out/parts.txt"
python3 -B bench/split.py narrow "$bench" "$out/traces.txt" >"$out/narrow.txt"
python3 -B bench/sizes.py "$folder" >"$out/sizes.txt"
size "$folder/libdriver_c.a" "$folder/libframe_c.a" >"$out/size.txt"
exec python3 -B tests/bench/check.py "$out"

#!/usr/bin/env bash
# Measures the exported functions over the mixed round of host/examples/bench_calls.rs: time, instructions, where these go, and stack.
# RUST_SRC and ORACLE are as for tests/32-engine-oracle.sh; with both at hand the Rust service is counted too.
set -euo pipefail
cd "$(dirname "${BASH_SOURCE[0]}")/.."
folder=${WIDOSHA_LIB_DIR:-target/staticlib}
rust=${RUST_SRC:-../shared/docs/src}
oracle=${ORACLE:-../shared/oracle}
out=target/bench/calls
rounds=200
for each in driver_c frame_c; do
    if ! [ -f "$folder/lib$each.a" ]; then
        echo "there is no $folder/lib$each.a; tools/staticlib.sh $each builds it"
        exit 1
    fi
done
mkdir -p "$out"
CARGO_TARGET_DIR=$PWD/target/host cargo build --quiet --manifest-path host/Cargo.toml --offline --release --example bench_calls
bench=target/host/release/examples/bench_calls

echo "== time"
"$bench"

# Instructions inside the exported functions only, and of what they call.
inside() {
    valgrind --tool=callgrind --collect-atstart=no --toggle-collect='widosha_*' --callgrind-out-file="$out/$1.out" \
        "$bench" "--$1" $rounds >"$out/$1.counts" 2>"$out/$1.log"
    callgrind_annotate --inclusive=yes --auto=no --threshold=100 "$out/$1.out" >"$out/$1.txt"
    python3 -B bench/instructions.py calls "$out/$1.counts" "$out/$1.txt"
}
if ! command -v valgrind >/dev/null || ! command -v callgrind_annotate >/dev/null || ! command -v python3 >/dev/null; then
    echo "instructions and stack were not measured: valgrind or python3 is missing"
    exit 0
fi
echo "== instructions, by callgrind, of $rounds rounds"
inside count
echo "== the same with three requests more in the waiting line"
inside waiting
echo "== instructions of the header reader, over five frames, $rounds times"
inside facts

echo "== where the instructions of the round's accepted calls go, and the same calls on 32 bits, by a rule of thumb (bench/split.py)"
if command -v objdump >/dev/null && command -v nm >/dev/null && [ "$(uname -sm)" = "Linux x86_64" ]; then
    "$bench" --trace >"$out/traces.txt"
    python3 -B bench/split.py parts "$bench" "$out/traces.txt"
    python3 -B bench/split.py narrow "$bench" "$out/traces.txt"
else
    echo "not counted: it needs objdump, nm, Linux and x86-64"
fi

echo "== stack: an upper bound for all inputs, added up from the library's machine code (bench/stack.py)"
if command -v objdump >/dev/null && [ "$(uname -m)" = x86_64 ]; then
    for each in driver_c frame_c; do
        python3 -B bench/stack.py "$folder/lib$each.a" || echo "the stack was not bounded"
    done
else
    echo "not measured: it needs objdump and x86-64"
fi

echo "== beside the unchanged Rust service, on the accepted calls of $rounds rounds"
if ! [ -f "$oracle/build.sh" ] || ! [ -f "$rust/src--dot15d4--src--driver.rs.txt" ]; then
    echo "not compared: the Rust service and its script runner are not at hand (set RUST_SRC and ORACLE)"
    exit 0
fi
echo "This library, all instructions from the entry of an exported function to its return:"
inside accepted
rm -rf "$out/oracle"
cp -r "$oracle" "$out/oracle"
chmod -R u+w "$out/oracle"
# The runner's build with later flags in place of its own: full optimisation, no assertions, lines for the counter.
cat >"$out/rustc" <<'END'
#!/bin/sh
exec "${BENCH_RUSTC:-rustc}" "$@" -C opt-level=3 -C debuginfo=1 -C debug-assertions=off -C overflow-checks=off -C codegen-units=1
END
chmod +x "$out/rustc"
BENCH_RUSTC=${RUSTC:-rustc} RUSTC=$PWD/$out/rustc RUST_SRC=$(realpath "$rust") sh "$out/oracle/build.sh"
"$bench" --script $rounds >"$out/script.txt"
valgrind --tool=callgrind --callgrind-out-file="$out/rust.out" "$out/oracle/target/oracle" \
    <"$out/script.txt" >"$out/rust.replies" 2>"$out/rust.log"
made=$(grep -c -v -e '^pool' -e '^start' "$out/script.txt")
answered=$(grep -c '^ok' "$out/rust.replies")
if [ "$answered" -ne $((made + 1)) ]; then
    echo "not compared: the Rust service accepted $answered of $((made + 1)) calls"
    exit 1
fi
callgrind_annotate --auto=no --threshold=100 "$out/rust.out" >"$out/rust.txt"
echo "The Rust service, same calls:"
python3 -B bench/instructions.py rust "$made" "$out/rust.txt"
echo "This is less than the Rust needs: what it uses of core, and the moving of its futures, is not in it, as both are mixed with the"
echo "stand-in radio and queue, which make text of every action. For the same reason times are not compared."

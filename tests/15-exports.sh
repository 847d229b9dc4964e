# The exported functions, called through C from Rust, give the answers of the fixed vectors.
set -e
rustc=${RUSTC:-rustc}
if ! command -v "$rustc" >/dev/null; then
    echo "there is no Rust compiler (set RUSTC)"
    exit 77
fi
mkdir -p target/exports
"$rustc" --edition 2021 tests/rust/exports.rs -C opt-level=3 -L target/staticlib -l static=leaves_c -l static=frame_c \
    -o target/exports/exports
exec target/exports/exports crates/leaf_vectors/stdin

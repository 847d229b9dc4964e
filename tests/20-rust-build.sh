# The unchanged Rust builds over the stand-ins, and the comparison program links it and the proved libraries.
set -e
rm -f target/rust/compare
bash tests/rust/build.sh target/rust
rlib() { echo "--extern $1=target/rust/lib/lib$1.rlib"; }
"${RUSTC:-rustc}" --edition 2021 tests/rust/compare.rs -C opt-level=3 -L target/rust/lib \
    $(rlib dot15d4_util) $(rlib dot15d4_frame) $(rlib driver_off) $(rlib driver_on) \
    -L target/staticlib -l static=leaves_c -l static=frame_c -o target/rust/compare
echo "target/rust/compare is built"

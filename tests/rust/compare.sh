# compare.sh NAME: one comparison with the unchanged Rust, left out where 20-rust-build.sh could not build it.
if ! [ -x target/rust/compare ]; then
    echo "no comparison with the Rust: target/rust/compare was not built"
    exit 77
fi
exec target/rust/compare "$1" docs/DIFFERENCES.md

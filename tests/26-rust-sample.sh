# The sample of the Rust's answers in crates/leaf_vectors/stdin (sections R and X) is what the Rust answers.
if ! [ -x target/rust/compare ]; then
    echo "no comparison with the Rust: target/rust/compare was not built"
    exit 77
fi
set -e
target/rust/compare sample >target/rust/sample.txt
grep '^[RX]' crates/leaf_vectors/stdin | cmp - target/rust/sample.txt
echo "$(wc -l <target/rust/sample.txt) lines are as the Rust answers"

# The rest of what the replay programs are run on, and of what they must print, is what the Rust service says (docs/REPLAY-FORMAT.md has
# what of it is not the Rust's: refusal numbers, link qualities and the line, among others).
if ! [ -x target/oracle/target/oracle ]; then
    echo "no comparison with the Rust service: target/oracle/target/oracle was not built"
    exit 77
fi
exec python3 -B tests/engine/sample.py rust crates/driver_replay target/oracle/target/oracle

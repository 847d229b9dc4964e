# The van's program on captures that Wireshark's tools write, in every form that it reads: its answers are those of tshark, which
# works out the checksums itself.
set -u
for each in cargo python3 tshark text2pcap editcap mergecap; do
    if ! command -v "$each" >/dev/null; then
        echo "there is no $each"
        exit 77
    fi
done
export CARGO_TARGET_DIR=$PWD/target/host
cargo build --quiet --manifest-path host/Cargo.toml --offline --locked --release --example check_capture || exit 1
out=$(mktemp -d) || exit 1
trap 'rm -rf "$out"' EXIT
python3 -B tests/capture/wireshark.py "$CARGO_TARGET_DIR/release/examples/check_capture" "$out"

# The checksums and checks of the proved library, through C, against another rule (tests/fcs/rule.py): random frames, all messages
# of one and two bytes, every checksum of one message, and published values.
set -e
rustc=${RUSTC:-rustc}
for each in python3 "$rustc"; do
    if ! command -v "$each" >/dev/null; then
        echo "there is no $each"
        exit 77
    fi
done
mkdir -p target/fcs
"$rustc" --edition 2021 tests/fcs/answers.rs -C opt-level=3 -L "${WIDOSHA_LIB_DIR:-target/staticlib}" -l static=frame_c \
    -o target/fcs/answers
python3 -B tests/fcs/compare.py target/fcs/answers
exec python3 -B tests/fcs/compare.py --self-test

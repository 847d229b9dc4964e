#!/usr/bin/env bash
# Builds the unchanged Rust over the stand-ins beside this file. Needs rustc (1.82 or later) and nothing else.
#   build.sh FOLDER                 puts everything into FOLDER; the libraries are in FOLDER/lib
# RUST_SRC names the folder with the Rust sources (by default ../shared/docs/src beside the checkout), RUSTC the compiler.
# Status 77: the sources or the compiler are not there.
set -euo pipefail
here=$(cd "$(dirname "${BASH_SOURCE[0]}")" && pwd)
src=${RUST_SRC:-$here/../../../shared/docs/src}
rustc=${RUSTC:-rustc}
out=$1

if ! [ -f "$src/src--dot15d4-driver--src--radio--frame--utils.rs.txt" ]; then
    echo "the Rust sources are not at hand (set RUST_SRC to the folder that has them)"
    exit 77
fi
if ! command -v "$rustc" >/dev/null; then
    echo "there is no Rust compiler (set RUSTC)"
    exit 77
fi

rm -rf "$out"
mkdir -p "$out/lib"
out=$(cd "$out" && pwd)

# The Rust files, byte for byte, under their own paths.
while read -r path; do
    mkdir -p "$out/src/$(dirname "$path")"
    cp "$src/src--${path//\//--}.txt" "$out/src/$path"
    cmp "$src/src--${path//\//--}.txt" "$out/src/$path"
done <<'END'
dot15d4-driver/src/timer.rs
dot15d4-driver/src/radio/mod.rs
dot15d4-driver/src/radio/constants.rs
dot15d4-driver/src/radio/phy.rs
dot15d4-driver/src/radio/tasks.rs
dot15d4-driver/src/radio/frame/mod.rs
dot15d4-driver/src/radio/frame/addressing.rs
dot15d4-driver/src/radio/frame/frame_control.rs
dot15d4-driver/src/radio/frame/radio_frame.rs
dot15d4-driver/src/radio/frame/repr.rs
dot15d4-driver/src/radio/frame/utils.rs
dot15d4-frame/src/lib.rs
dot15d4-frame/src/fields/mpdu.rs
dot15d4-frame/src/mpdu/ack.rs
dot15d4-frame/src/mpdu/frame.rs
dot15d4-frame/src/repr/mpdu.rs
dot15d4-frame/src/repr/seq_nr.rs
END

# The stand-ins beside them.
cp "$here/standin/driver.rs" "$out/src/dot15d4-driver/src/lib.rs"
cp "$here/standin/reader.rs" "$out/src/dot15d4-driver/src/"
cp "$here/standin/config.rs" "$here/standin/const_config.rs" "$out/src/dot15d4-driver/src/radio/"
cp "$here/standin/field_ranges.rs" "$out/src/dot15d4-frame/src/fields/"
cp "$here/standin/fields.rs" "$out/src/dot15d4-frame/src/fields/mod.rs"
cp "$here/standin/mpdu.rs" "$out/src/dot15d4-frame/src/mpdu/mod.rs"
cp "$here/standin/repr.rs" "$out/src/dot15d4-frame/src/repr/mod.rs"

# library NAME SOURCE WORDS..: a library at full optimisation. Debug assertions are on where RUST_ASSERT is not 0, so that a
# broken assumption of the Rust shows as a panic.
library() {
    local name=$1 source=$2
    shift 2
    local checks=(-C debug-assertions=on -C overflow-checks=on)
    if [ "${RUST_ASSERT:-1}" = 0 ]; then
        checks=(-C debug-assertions=off -C overflow-checks=off)
    fi
    "$rustc" --edition 2021 --crate-type rlib --crate-name "$name" "$source" --cap-lints allow \
        -C opt-level=3 -C debuginfo=0 "${checks[@]}" -L "$out/lib" --out-dir "$out/lib" "$@"
}
library fugit "$here/standin/fugit.rs"
library dot15d4_util "$here/standin/util.rs"
# The implicit broadcast setting is a constant of the Rust, so there is one library for each.
library driver_off "$out/src/dot15d4-driver/src/lib.rs" --extern fugit --extern dot15d4_util ${RUST_CFG:-}
library driver_on "$out/src/dot15d4-driver/src/lib.rs" --extern fugit --extern dot15d4_util ${RUST_CFG:-} --cfg implicit_broadcast
library dot15d4_frame "$out/src/dot15d4-frame/src/lib.rs" --extern dot15d4_util --extern dot15d4_driver="$out/lib/libdriver_off.rlib"

# The host crate: its unit tests, its documented examples and its documentation; its build says in a sentence where it cannot be, and
# start where the library has another version of the interface; none of its functions can panic, nor can the reader of captures; and
# the demonstration of the two cranes holds what it tells (it checks every answer, every mass, every link quality and what waits in a
# line itself) and prints the same twice.
set -e
for each in cargo "${RUSTC:-rustc}"; do
    if ! command -v "$each" >/dev/null; then
        echo "there is no $each"
        exit 77
    fi
done
export CARGO_TARGET_DIR=$PWD/target/host
folder=${WIDOSHA_LIB_DIR:-$PWD/target/staticlib}
host() {
    local command=$1
    shift
    cargo "$command" --quiet --manifest-path host/Cargo.toml --offline --locked "$@"
}
host test --lib
host test --doc
RUSTDOCFLAGS="-D warnings" host doc --no-deps

# Where the target is another one, or a library is not built yet, the build says so, in one sentence, and ends.
cannot_be_built() {
    local why=$1 said
    shift
    if said=$(CARGO_TARGET_DIR=$CARGO_TARGET_DIR/cannot host check "$@" 2>&1); then
        echo "the host crate is built, though $why"
        exit 1
    fi
    if [ "$(grep -c "cannot be built" <<<"$said")" != 1 ] || ! grep -qF "widosha cannot be built: $why" <<<"$said"; then
        echo "the host crate is not built, and does not say that $why:"
        echo "$said"
        exit 1
    fi
}
none=$CARGO_TARGET_DIR/cannot/no-libraries
one=$CARGO_TARGET_DIR/cannot/one-library
mkdir -p "$none" "$one"
touch "$one/libdriver_c.a"
WIDOSHA_LIB_DIR=$none cannot_be_built "there is no $none/libdriver_c.a yet"
WIDOSHA_LIB_DIR=$one cannot_be_built "there is no $one/libframe_c.a yet"
other="the proved libraries are for x86-64 Linux, and this build is for"
cannot_be_built "$other arm none" --target thumbv7em-none-eabihf
cannot_be_built "$other x86_64 windows" --target x86_64-pc-windows-msvc
echo "the build says where it cannot be"

out=$CARGO_TARGET_DIR/checks
mkdir -p "$out"
# With checks of arithmetic, so that an overflow would be a panic that is found.
compile() {
    "${RUSTC:-rustc}" --edition 2021 -C opt-level=3 -C overflow-checks=on -C panic=abort --out-dir "$out" -L "$out" \
        -L native="$folder" "$@"
}
compile --crate-name widosha --crate-type rlib host/src/lib.rs -l static=driver_c -l static=frame_c

# The program's own function for the version comes before the library's.
compile -C link-arg=-Wl,--allow-multiple-definition host/checks/other_version.rs --extern widosha="$out/libwidosha.rlib"
"$out/other_version"

if command -v nm >/dev/null; then
    compile --crate-type staticlib -C lto=fat -C codegen-units=1 host/checks/no_panic.rs --extern widosha="$out/libwidosha.rlib"
    for each in start step bytes waiting facts pool time ended words begin looped lent checksum capture; do
        if ! nm "$out/libno_panic.a" 2>/dev/null | grep -q " T $each\$"; then
            echo "the check for panics has no function $each"
            exit 1
        fi
    done
    if nm "$out/libno_panic.a" 2>/dev/null | grep -q widosha_can_panic; then
        echo "some function of the host crate, or the reader of captures, can panic"
        exit 1
    fi
    echo "no function of the host crate can panic, nor can the reader of captures"
fi

host build --release --example two_cranes
"$CARGO_TARGET_DIR"/release/examples/two_cranes >"$CARGO_TARGET_DIR/two_cranes.txt"
"$CARGO_TARGET_DIR"/release/examples/two_cranes | cmp - "$CARGO_TARGET_DIR/two_cranes.txt"
exec cat "$CARGO_TARGET_DIR/two_cranes.txt"

#!/usr/bin/env bash
# The van's program, host/examples/check_capture, on the small capture in its three forms: the answer for each frame, the closing
# count, the exit status; and what it says of captures that it cannot read. A second reader in Python agrees with it on damaged
# captures.
cd "$(dirname "${BASH_SOURCE[0]}")/.." || exit 2
source tests/common.sh
needs cargo
export CARGO_TARGET_DIR=$PWD/target/host
cargo build --quiet --manifest-path host/Cargo.toml --offline --locked --release --example check_capture || exit 1
program=$CARGO_TARGET_DIR/release/examples/check_capture
small=host/examples/check_capture
own_folder

# checks NAME STATUS ARGUMENT..: the program ends with that status. What it prints is then in $out/lines and $out/told.
checks() {
    local name=$1 expected=$2 status=0
    shift 2
    "$program" "$@" >"$out/lines" 2>"$out/told" || status=$?
    [ "$status" -eq "$expected" ] || fail "$name: status $status, expected $expected: $(cat "$out/told")"
    # One line on standard error if the capture could not be read, else none.
    [ "$(wc -l <"$out/told")" -eq $((expected == 2)) ] || fail "$name: standard error has $(cat "$out/told")"
}

# told NAME PATTERN: the line on standard error has it.
told() {
    grep -qE "$2" "$out/told" || fail "$1: no $2 in: $(cat "$out/told")"
}

# The frames of make_captures.py, and why the answer is right:
#   1  the acknowledgement of request E5, whose checksum is E4 79
#   2  a weighing with its checksum FA CF, as Python's crc_hqx works it out
#   3  frame 2 with one bit turned and frame 2's checksum. The turned bit alone with the three bytes after it, 01 00 00 00, has the
#      checksum BB 1C; the start value is zero, so the right one is FA CF and BB 1C added without carry: 41 D3
#   4  a weighing with its two checksum bytes, which differ, exchanged: right is what stands there the other way round
#   5  two bytes: under 3, whatever they are
#   6  three bytes, the shortest that is checked: the checksum of a zero is zero
#   7  127 bytes, the longest, with their checksum
#   8  128 bytes with their checksum: over 127
cat >"$out/expected" <<'END'
     1  length   5  yes
     2  length  17  yes
     3  length  17  no: it ends in fa cf, right would be 41 d3
     4  length  17  no: it ends in 12 40, right would be 40 12
     5  length   2  refused (14): under 3 bytes
     6  length   3  yes
     7  length 127  yes
     8  length 128  refused (14): over 127 bytes
frames: 8, yes: 4, no: 2, refused: 2
END
for form in pcap pcapng txt; do
    checks "small.$form" 1 "$small/small.$form"
    # Without the place, which differs from form to form.
    sed -E 's/^( *[0-9]+)  (byte|line) [0-9]+ +/\1  /' "$out/lines" | diff "$out/expected" - || fail "small.$form: other answers"
    cp "$out/lines" "$out/$form"
    checks "small.$form from standard input" 1 - <"$small/small.$form"
    cmp "$out/lines" "$out/$form" || fail "small.$form: other lines from standard input"
done

# Right frames alone, a capture without a frame, and one that the capture cut.
head -n 2 "$small/small.txt" >"$out/right"
checks "right frames" 0 "$out/right"
head -c 24 "$small/small.pcap" >"$out/header"
checks "a header alone" 0 "$out/header"
{ head -c 36 "$small/small.pcap" && printf '\x32\0\0\0' && head -c 45 "$small/small.pcap" | tail -c 5; } >"$out/cut-frame"
checks "a frame that was cut" 0 "$out/cut-frame"
grep -q 'yes; 5 of 50 bytes captured$' "$out/lines" || fail "a frame that was cut: $(cat "$out/lines")"
[ "$(tail -n 1 "$out/lines")" = "frames: 1, yes: 1, no: 0, refused: 0, of these cut: 1" ] || fail "the cut one is not counted"

# A cut file: the second record begins at byte 45, and its frame at 61. The first frame is told and counted before.
head -c 70 "$small/small.pcap" >"$out/cut.pcap"
checks "a cut pcap" 2 "$out/cut.pcap"
told "a cut pcap" ': byte 45: '
[ "$(tail -n 1 "$out/lines")" = "frames: 1, yes: 1, no: 0, refused: 0" ] || fail "a cut pcap: $(cat "$out/lines")"
# In pcapng, the first packet's block begins at byte 112.
head -c 150 "$small/small.pcapng" >"$out/cut.pcapng"
checks "a cut pcapng" 2 "$out/cut.pcapng"
told "a cut pcapng" ': byte 112: '
printf '02 00 6a e4 79\n02 0' >"$out/cut.txt"
checks "a cut text" 2 "$out/cut.txt"
told "a cut text" ': line 2, column 4: '

# A record that says it holds more than the frame had: its length would take the next record in, so nothing after it is told. The
# captured length of the first, 5, stands at byte 32.
{ head -c 32 "$small/small.pcap" && printf '\x26' && tail -c +34 "$small/small.pcap"; } >"$out/swallowed"
checks "more captured than there was" 2 "$out/swallowed"
told "more captured than there was" ': byte 24: 38 bytes are captured of a frame that had 5$'
# The name of a file does not make two lines of one.
checks "a name with a line's end" 2 "$out/no
file"

# Other link types are named.
linked() {
    { head -c 20 "$small/small.pcap" && printf "$2\0\0\0"; } >"$out/link"
    checks "$1" 2 "$out/link"
    told "$1" ": byte 0: $1"
}
linked 'link type 1 \(Ethernet\)' '\x01'
linked 'link type 105 \(IEEE 802.11\)' '\x69'
linked 'link type 230 \(IEEE 802.15.4 without FCS\)' '\xe6'
checks "neither form" 2 README.md
told "neither form" ': line 1, column 1: this is neither pcap, pcapng nor hexadecimal pairs$'
printf '\n \r\n' >"$out/no-pair"
checks "empty lines" 2 "$out/no-pair"
told "empty lines" ': byte 0: this is neither pcap, pcapng nor hexadecimal pairs$'
checks "an empty file" 2 /dev/null
told "an empty file" empty
checks "no such file" 2 "$out/missing"
checks "a folder" 2 "$out"
checks "no argument" 2
checks "two captures" 2 "$out/right" "$out/right"
checks "an option that is not there" 2 --all

# Who reads the lines may stop: the status is that of the whole capture all the same. Only the last frame is wrong, then cut off.
for _ in $(seq 5000); do cat "$out/right"; done >"$out/long"
stopped() {
    "$program" "$out/long" 2>"$out/told" | head -n 1 >"$out/lines"
    local status=${PIPESTATUS[0]}
    [ "$status" -eq "$1" ] && [ "$(wc -l <"$out/told")" -eq $(($1 == 2)) ] ||
        fail "a closed pipe: status $status, expected $1: $(cat "$out/told")"
}
stopped 0
echo '02 00 6b e4 79' >>"$out/long"
stopped 1
echo '02 0' >>"$out/long"
stopped 2
# A full disk is no such thing.
if [ -c /dev/full ]; then
    status=0
    "$program" "$small/small.txt" 2>"$out/told" >/dev/full || status=$?
    [ "$status" -eq 2 ] || fail "a full disk: status $status"
    told "a full disk" ': standard output: '
fi

if command -v python3 >/dev/null; then
    mkdir "$out/made"
    python3 -B "$small/make_captures.py" "$out/made" || fail "make_captures.py failed"
    for form in pcap pcapng txt; do
        cmp "$out/made/small.$form" "$small/small.$form" || fail "small.$form is not what make_captures.py writes"
    done
    python3 -B tests/capture/reference.py "$program" 200 "$small"/small.{pcap,pcapng,txt} "$out/right" ||
        fail "the second reader differs"
else
    echo "the captures were not written anew, and there is no second reader: there is no python3"
fi
[ "$failed" -eq 0 ] && cat "$out/pcap"
exit "$failed"

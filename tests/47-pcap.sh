#!/usr/bin/env bash
# ./run --pcap FILE: the capture is read back by an independent reader, which compares it with the story that was printed, and by
# check_capture; Wireshark's tools read it where they are. And what ./run says to a wrong call, or to a file that cannot be written.
cd "$(dirname "${BASH_SOURCE[0]}")/.." || exit 2
source tests/common.sh
needs rt cargo python3
run=$PWD/run
reader=$PWD/tests/pcap/read_back.py
own_folder

# From another folder, and as a first run, which builds and says so; the later ones have nothing to build.
rm -f target/run.sum
cd "$out" || exit 1
if ! "$run" --pcap frames.pcap >story 2>told; then
    cat told
    exit 1
fi
grep -qE '^proving crate [0-9]+ of [0-9]+: driver_c$' told || fail "a first run does not say what it proves: $(cat told)"
python3 -B "$reader" frames.pcap story || fail "the capture is not what the story prints"
"$run" -v --pcap with-calls.pcap >calls 2>told || fail "with -v: $(cat told)"
cmp frames.pcap with-calls.pcap || fail "with -v the capture differs"
python3 -B "$reader" with-calls.pcap calls || fail "the capture is not what the story with its calls prints"
[ ! -s told ] || fail "a run with nothing to build says: $(cat told)"

# The story is what -v prints without the calls; the second line says which of the two it is.
diff <(grep -v ' -> ' calls | sed '2d; s/with-calls/frames/') <(sed 2d story) || fail "the story is not that of -v without the calls"
grep -q ' -> ' calls || fail "with -v there are no calls"

# The project's own reader says yes to every frame.
"$run" check_capture frames.pcap >lines || fail "check_capture: status $?: $(tail -n 1 lines)"
for tool in capinfos tshark; do
    command -v "$tool" >/dev/null || continue
    "$tool" -r frames.pcap >/dev/null 2>&1 || "$tool" frames.pcap >/dev/null 2>&1 || fail "$tool does not read it"
done

# refuses WORDS ARGUMENT..: status 2, one line on standard error, and the words are in it.
refuses() {
    local status=0
    "$run" "${@:2}" >lines 2>told || status=$?
    [ "$status" -eq 2 ] || fail "${*:2}: status $status"
    [ "$(wc -l <told)" -eq 1 ] && grep -q "$1" told || fail "${*:2}: standard error has $(cat told)"
}
refuses '^usage: ' --calls
refuses '^usage: ' -v -w
refuses '^usage: ' --pcap
refuses '^usage: ' no_such_program
refuses 'no-folder/x cannot be written: ' --pcap no-folder/x
[ ! -c /dev/full ] || refuses '/dev/full cannot be written: ' --pcap /dev/full
program=${run%/*}/target/host/release/examples/two_cranes
status=0
"$program" -v -w >lines 2>told || status=$?
[ "$status" -eq 2 ] && grep -q 'usage: ' told || fail "the program itself takes -w: status $status"
# Nobody has to read the story: when it begins, the reading end of its pipe has been closed.
{
    sleep 1
    "$run" 2>told
    echo $? >status
} | true
[ "$(cat status)" -eq 0 ] && [ ! -s told ] || fail "a closed pipe: status $(cat status), $(cat told)"
exit "$failed"

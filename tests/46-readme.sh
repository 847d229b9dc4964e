#!/usr/bin/env bash
# What README.md and the other documents show of ./run is what it prints; the two commands are there; and ./run says what is missing,
# all together, and which crate of how many is being proved.
cd "$(dirname "${BASH_SOURCE[0]}")/.." || exit 2
source tests/common.sh
needs rt cargo python3
own_folder

for each in ./run ./test; do
    grep -q "^    $each  " README.md && [ -x "$each" ] || fail "$each is not as README.md has it"
done
# What the first run builds is told once.
./run >/dev/null 2>"$out/told" || fail "./run: $(cat "$out/told")"
python3 -B tests/readme/quotes.py ./run ./*.md host/*.md docs/*.md docs/requests/*.md || fail "a document and ./run differ"

# With nothing but what it needs itself, ./run names all three, each with its source, and builds nothing.
mkdir "$out/few"
for each in bash dirname; do
    ln -s "$(command -v "$each")" "$out/few/$each"
done
status=0
PATH=$out/few bash ./run >"$out/lines" 2>"$out/told" || status=$?
[ "$status" -eq 3 ] && [ ! -s "$out/lines" ] || fail "with nothing there: status $status"
for each in 'rt: .*toolchain' 'cargo: .*Rust' 'a C linker (cc, gcc or clang).*package'; do
    [ "$(grep -c "^  $each" "$out/told")" -eq 1 ] || fail "it is not said that there is no $each: $(cat "$out/told")"
done
[ "$(wc -l <"$out/told")" -eq 4 ] || fail "more is said to be missing: $(cat "$out/told")"
ln -s "$(command -v rt)" "$out/few/rt"
PATH=$out/few bash ./run >"$out/lines" 2>"$out/told" && fail "without cargo it ends with 0"
grep -q '^  rt: ' "$out/told" && fail "rt is there, and is said to be missing"
# Others than those that are needed: a toolchain is told, an older cargo is missing too.
others() {
    printf '#!%s\necho "%s"\n' "$(command -v bash)" "$2" >"$out/few/$1.new"
    chmod +x "$out/few/$1.new" && mv -f "$out/few/$1.new" "$out/few/$1"
}
others rt 'another toolchain'
for each in 1.81.9 1.82.0 2.0.0; do
    others cargo "cargo $each (of another day)"
    PATH=$out/few bash ./run >"$out/lines" 2>"$out/told" && fail "without a linker it ends with 0"
    grep -q "^The toolchain is 'another toolchain': proofs are claimed of $(<toolchain.txt) alone" "$out/told" ||
        fail "another toolchain is not told: $(cat "$out/told")"
    [ "$(grep -c '^  a later cargo: ' "$out/told")" -eq "$([ "$each" = 1.81.9 ] && echo 1 || echo 0)" ] ||
        fail "cargo $each: $(cat "$out/told")"
done

# The progress, of what rt says. Another count of the crates: all lines that are reached from the two libraries'.
crates=$(python3 -B - <<'END'
uses = {}
for line in open("crates.txt", encoding="utf-8"):
    name, _, used = line.split("#")[0].partition(":")
    if name.split():
        uses[name.split()[0]] = used.split()
reached, new = set(), {"driver_c", "frame_c"}
while new:
    reached |= new
    new = {each for name in new for each in uses[name]} - reached
print(len(reached))
END
)
tools/progress.sh driver_c frame_c 2>"$out/told" <<'END'
rt: chose --jobs 2 for refusals
fn refusals::number: proved
rt: chose --jobs 2 for driver_c
rt: frame_c: begins with what a check kept in another copy
rt: chose --jobs 2 for frame_c
END
# After refusals, which uses nothing, one is proved; frame_c is the last of the two libraries.
expected="The library is built from $crates crates. Those that earlier runs have not proved are proved first.
proving crate 1 of $crates: refusals
proving crate N of $crates: driver_c
proving crate $crates of $crates: frame_c"
[ "$(sed -E 's/crate [0-9]+ (.*driver_c)/crate N \1/' "$out/told")" = "$expected" ] || fail "the progress is told as: $(cat "$out/told")"
exit "$failed"

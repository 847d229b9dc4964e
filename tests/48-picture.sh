#!/usr/bin/env bash
# The pictures are what their scripts make: docs/two-cranes.svg of what the demonstration prints now, docs/waits.svg of its own text.
# Both are well-formed XML, nothing of theirs stands outside, and the first has each of its colours in a light and a dark theme.
cd "$(dirname "${BASH_SOURCE[0]}")/.." || exit 2
source tests/common.sh
needs rt cargo python3
own_folder

./run -v >"$out/calls" 2>"$out/told" || fail "./run -v: $(cat "$out/told")"
python3 -B docs/two_cranes.py <"$out/calls" >"$out/two-cranes.svg" || fail "docs/two_cranes.py failed"
python3 -B docs/waits.py >"$out/waits.svg" || fail "docs/waits.py failed"
for each in two-cranes waits; do
    cmp "$out/$each.svg" "docs/$each.svg" || fail "docs/$each.svg is not what its script makes now"
done
# Without the calls there is no wait to draw.
./run 2>"$out/told" | python3 -B docs/two_cranes.py >"$out/lines" 2>"$out/told" && fail "a picture was made without the calls"
grep -q 'scene 2 of the demonstration has no ' "$out/told" || fail "it is not said what is missing: $(cat "$out/told")"
python3 -B tests/readme/picture.py docs/two-cranes.svg docs/waits.svg || fail "a picture is not sound"
exit "$failed"

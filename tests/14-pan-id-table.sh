#!/usr/bin/env bash
# The cases of current_pan_ids stand in the order of the standard's table, and each has its row's number, columns and PANs. That the
# answers are the table's is proved; this holds the texts together, so that the two can be read side by side.
cd "$(dirname "${BASH_SOURCE[0]}")/../crates/addressing" || exit 2

# A row of the table as the code should have it: "DESTINATION, SOURCE, BIT 6 => DESTINATION PAN, SOURCE PAN row NUMBER".
rows=$(sed -nE 's/^    ∣ (.*) ∣$/\1/p' specs/PanIdCompression.antt | sed 's/ ∣ / /g' | awk '
    function modes(word) {
        return word == "not_present" ? "Absent | Unknown" : word == "short" ? "Short" : word == "extended" ? "Extended" : word == "present" ? "Short | Extended" : "?"
    }
    function constant(word) { return word == "present" ? "PRESENT" : word == "not_present" ? "NOT_PRESENT" : "?" }
    function bit(word) { return word == "1" ? "true" : word == "0" ? "false" : "?" }
    { print modes($2) ", " modes($3) ", " bit($6) " => " constant($4) ", " constant($5) " row " $1 }')
# Every arm of the code, as it stands.
cases=$(sed -n '/^    let (dst, src) = match (dst, src, compression) {$/,/^    };$/p' src/lib.rt | sed '1d; $d' | sed -E 's/^ +\((.*)\) => \((.*)\), \/\/ (row [0-9]+)$/\1 => \2 \3/')
if [ "$(wc -l <<<"$rows")" -ne 14 ]; then
    echo "fourteen rows were not found in specs/PanIdCompression.antt"
    exit 1
fi
if ! diff <(echo "$rows") <(echo "$cases"); then
    echo "rows of the table (<) and cases of the code (>) differ"
    exit 1
fi
echo "14 rows, each with its case"

#!/usr/bin/env bash
# docs/WRONG-PROGRAMS.md names every must-fail edit once, and no edit that is not there; docs/WITNESSES.md has a row for each.
cd "$(dirname "${BASH_SOURCE[0]}")/.." || exit 2
doc=docs/WRONG-PROGRAMS.md
status=0
edits=$(for each in crates/*/must-fail/*.edit; do
    crate=${each#crates/}
    echo "${crate%%/*} $(basename "$each" .edit)"
done | sort)
# A row's first column is the crate; "kept as" is its last, or in the table of leaves_c the last but one.
rows=$(sed -nE 's/^\| ([a-z_]+) \|.* \| ([a-z0-9_]+) \|$/\1 \2/p; s/^\| (leaves_c) \| [a-z_]+ \| .* \| ([a-z0-9_]+) \| [^|]*\|$/\1 \2/p' "$doc" | grep -vE "^(crate|list) " | sort)
difference=$(diff <(echo "$edits") <(echo "$rows"))
if [ -n "$difference" ]; then
    echo "edits (<) and rows of $doc (>) differ:"
    echo "$difference"
    status=1
fi
# crate/edit, as the table of document 01's own lists has them
while read -r name; do
    if [ ! -f "crates/${name%%/*}/must-fail/${name#*/}.edit" ]; then
        echo "$doc names $name, which is not there"
        status=1
    fi
done < <(sed -n "/^## Where document 01's own lists/,/^## /p" "$doc" | grep -oE '\b[a-z_]+/[a-z0-9_]+\b')
difference=$(diff <(tr ' ' / <<<"$edits" | sort) <(sed -nE 's/^\| ([a-z_]+\/[a-z0-9_]+) \| .+ \|$/\1/p' docs/WITNESSES.md | sort))
if [ -n "$difference" ]; then
    echo "edits (<) and rows of docs/WITNESSES.md (>) differ:"
    echo "$difference"
    status=1
fi
[ "$status" -eq 0 ] && echo "$(wc -l <<<"$edits") edits, each with its row"
exit "$status"

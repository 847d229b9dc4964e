#!/usr/bin/env bash
# docs/BEHAVIOUR.md stands for the texts that specs, sources and docs cite as documents 01 and 02:
# 1. each section that a citation names, document 01, "NAME", or document 02, EN, is a heading there (of a request that has not
#    landed a row);
# 2. each refusal number of crates/refusals has its row there, and no other number has one;
# 3. its table of PAN compression has the rows of crates/addressing.
cd "$(dirname "${BASH_SOURCE[0]}")/.." || exit 2
doc=docs/BEHAVIOUR.md
status=0

# Every text on one line, without the marks that comments have at the beginnings of lines, so that a citation may be broken. (The
# notes of docs/requests quote whole sentences that a request changes, and no sections.)
text=$(find crates/*/specs crates/*/src crates/*/proofs crates/*/must-fail host/src host/tests host/examples docs include tests \
    tools README.md -type f \( -name '*.antt' -o -name '*.rt' -o -name '*.rs' -o -name '*.edit' -o -name '*.md' -o -name '*.h' \
    -o -name '*.py' -o -name '*.sh' \) ! -path tests/19-documents.sh ! -path 'docs/requests/*' -print0 |
    xargs -0 sed -E 's,^[[:space:]]*(--|//[/!]?|#|\*) ?,,' | tr '\n' ' ' | tr -s ' ')
# Document 01, "NAME", "NAME" and "NAME": the names, one a line
names=$(grep -oE '[Dd]ocument 01, "[^"]+"((,| and|, and) "[^"]+")*' <<<"$text" | grep -oE '"[^"]+"' | tr -d '"' | sort -u)
# document 02, E1, E4 and E6
requests=$(grep -oE '[Dd]ocument 02, E[0-9]+((,| and|, and) E[0-9]+)*' <<<"$text" | grep -oE 'E[0-9]+' | sort -u)
if [ "$(wc -l <<<"$names")" -lt 5 ] || [ "$(wc -l <<<"$requests")" -lt 5 ]; then
    echo "hardly a citation was found: $names $requests"
    exit 1
fi
headings=$(sed -nE 's/^#+ //p' "$doc")
while read -r name; do
    if ! grep -qxF -- "$name" <<<"$headings"; then
        echo "document 01, \"$name\", is cited, and $doc has no such section:"
        grep -rnF -- "\"$name\"" crates/*/specs crates/*/src crates/*/proofs host/src host/tests docs README.md | head -n 3
        status=1
    fi
done <<<"$names"
while read -r name; do
    if ! grep -qE "^## $name: |^\| $name \|" "$doc"; then
        echo "document 02, $name, is cited, and $doc has neither a section nor a row of it"
        status=1
    fi
done <<<"$requests"

numbers=$(sed -nE 's/^refusal_number .* = ([0-9]+)$/\1/p' crates/refusals/specs/Refusals.antt)
rows=$(sed -n '/^## Refusals, in checking order/,/^## The third/p' "$doc" | sed -nE 's/^\| ([0-9]+)[ |].*$/\1/p')
if [ -z "$numbers" ] || [ "$numbers" != "$rows" ]; then
    echo "the numbers of crates/refusals (<) and the rows of $doc (>) differ:"
    diff <(echo "$numbers") <(echo "$rows")
    status=1
fi

table=$(sed -nE 's/^ *∣ ([0-9]+ ∣ .*) ∣ *$/\1/p' crates/addressing/specs/PanIdCompression.antt | sed 's/∣/|/g; s/not_/not /g')
said=$(sed -n '/^## E3: /,/^## E4: /p' "$doc" | sed -nE 's/^\| ([0-9]+ \| .*) \|$/\1/p')
if [ -z "$table" ] || [ "$table" != "$said" ]; then
    echo "the rows of PAN compression of crates/addressing (<) and $doc (>) differ:"
    diff <(echo "$table") <(echo "$said")
    status=1
fi

[ "$status" -eq 0 ] && echo "$(wc -l <<<"$names") sections of document 01 and $(wc -l <<<"$requests") requests are cited, and $doc has them"
exit "$status"

#!/usr/bin/env bash
# Every Rattle file is in the layout of rt fmt: laid out in a copy, each crate's src, specs and proofs stay as they are. (rt ci also
# refuses a crate that is not laid out.)
cd "$(dirname "${BASH_SOURCE[0]}")/.." || exit 2
copy=$(mktemp -d) || exit 2
trap 'rm -rf "$copy"' EXIT
status=0
crates=$(sed -nE 's/^([a-z0-9_]+)[^:#]*:.*/\1/p' crates.txt)
for crate in $crates; do
    mkdir "$copy/$crate" || exit 2
    for part in src specs proofs; do
        [ ! -d "crates/$crate/$part" ] || cp -r "crates/$crate/$part" "$copy/$crate/" || exit 2
    done
    if ! (cd "$copy/$crate" && rt fmt) </dev/null >"$copy/said" 2>&1; then
        echo "crates/$crate was not laid out:"
        cat "$copy/said"
        status=1
    fi
    for part in src specs proofs; do
        [ ! -d "crates/$crate/$part" ] || diff -ru "crates/$crate/$part" "$copy/$crate/$part" || status=1
    done
done
if [ -z "$crates" ]; then
    echo "crates.txt names no crate"
    status=1
fi
[ "$status" -eq 0 ] && echo "$(wc -w <<<"$crates") crates are in the layout of rt fmt"
exit "$status"

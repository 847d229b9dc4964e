#!/usr/bin/env bash
# staticlib.sh NAME..      proves static libraries and puts their archives into target/staticlib: that of NAME as libNAME.a, but that of
# leaf_exports, which has the functions of leaves_c, as libleaves_c.a. One that is as before keeps its time; where the build fails there
# is none. The proofs go over what earlier runs kept in crates/*/out.
set -euo pipefail
cd "$(dirname "${BASH_SOURCE[0]}")/.."
mkdir -p target/staticlib
for name; do
    made=crates/$name/out/lib$name.a
    archive=target/staticlib/lib$name.a
    [ "$name" != leaf_exports ] || archive=target/staticlib/libleaves_c.a
    rm -f "$made"
    if ! (cd "crates/$name" && rt lib) </dev/null; then
        rm -f "$archive"
        echo "$name was not built" >&2
        exit 1
    fi
    if ! [ -f "$made" ]; then
        rm -f "$archive"
        echo "there is no $made: crates.txt has to say '$name staticlib:'" >&2
        exit 1
    fi
    cmp -s "$made" "$archive" || cp "$made" "$archive"
    echo "$archive is built"
done

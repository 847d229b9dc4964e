#!/usr/bin/env bash
# program.sh NAME          proves and builds a program, and prints its path, which is all that it prints. The proof goes over what earlier
# runs kept in crates/*/out; with no change since the last build nothing is proved. rt run, which builds it, also runs it: here on the
# crate's file stdin, and what it prints is dropped. What the toolchain says is shown only if that fails.
set -euo pipefail
cd "$(dirname "${BASH_SOURCE[0]}")/.."
name=$1
input=/dev/null
if [ -f "crates/$name/stdin" ]; then
    input=$PWD/crates/$name/stdin
fi
said=$(mktemp)
trap 'rm -f "$said"' EXIT
if ! (cd "crates/$name" && rt run) <"$input" 2>"$said" >/dev/null; then
    cat "$said" >&2
    echo "$name was not built, or did not end well" >&2
    exit 1
fi
echo "$PWD/crates/$name/out/$name"

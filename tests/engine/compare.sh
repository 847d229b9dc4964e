#!/usr/bin/env bash
# compare.sh ORACLE CALLS SEED      tests/engine/compare.py with the replay program over the exported library and, on the same records, the
# proved one; with the proved one alone where there is no C compiler. With '-' for ORACLE the comparison is with the model alone.
set -uo pipefail
cd "$(dirname "${BASH_SOURCE[0]}")/../.." || exit 1
if ! command -v python3 >/dev/null; then
    echo "there is no python3"
    exit 77
fi
proved=$(tools/program.sh driver_replay) || exit 1
exported=$(bash tests/engine/exported_replay.sh)
case $? in
0) programs=("$exported" "$proved") ;;
77) programs=("$proved") ;;
*) exit 1 ;;
esac
exec python3 -B tests/engine/compare.py "${programs[0]}" "$1" docs/DIFFERENCES.md "$2" "$3" "${programs[@]:1}"

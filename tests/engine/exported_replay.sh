#!/usr/bin/env bash
# exported_replay.sh      builds the replay program over the exported library, and prints its path, which is all that it prints. The library
# is what tests/13-driver-c.sh builds, or stands in the folder WIDOSHA_LIB_DIR. The exit status is 77 if there is no C compiler.
set -euo pipefail
cd "$(dirname "${BASH_SOURCE[0]}")/../.."
cc=${CC:-cc}
if ! command -v "$cc" >/dev/null; then
    echo "there is no $cc" >&2
    exit 77
fi
program=$PWD/target/engine/exported_replay
mkdir -p target/engine
"$cc" -std=c99 -O2 -Wall -Wextra -Wpedantic -Werror -Iinclude tests/engine/exported_replay.c \
    -L"${WIDOSHA_LIB_DIR:-target/staticlib}" -ldriver_c -o "$program" >&2
echo "$program"

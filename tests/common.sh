# What several tests begin with; each takes it by `source tests/common.sh`.
set -u
failed=0

fail() {
    echo "$1"
    failed=1
}

# needs TOOL..: without one of them the test is left out.
needs() {
    local each
    for each; do
        if ! command -v "$each" >/dev/null; then
            echo "there is no $each"
            exit 77
        fi
    done
}

# A folder of its own, which goes when the test ends.
own_folder() {
    out=$(mktemp -d) || exit 1
    trap 'rm -rf "$out"' EXIT
}

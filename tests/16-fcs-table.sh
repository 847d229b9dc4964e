# The table of 256 checksums is the same in the code, in specs and in what the program crates/fcs_table must print, and each entry
# is what another rule gives. That the code's table is right is proved; this holds the texts together.
set -e
if ! command -v python3 >/dev/null; then
    echo "there is no python3"
    exit 77
fi
python3 -B tests/fcs/table.py
exec python3 -B tests/fcs/table.py --self-test

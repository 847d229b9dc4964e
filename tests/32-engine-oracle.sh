# The oracle, which runs the unchanged Rust service from a script, is built from the files at hand, and keeps its own remarks.
set -e
rust=${RUST_SRC:-../shared/docs/src}
oracle=${ORACLE:-../shared/oracle}
for each in python3 "${RUSTC:-rustc}"; do
    if ! command -v "$each" >/dev/null; then
        echo "there is no $each"
        exit 77
    fi
done
if ! [ -f "$rust/src--dot15d4--src--driver.rs.txt" ]; then
    echo "no comparison with the Rust service: its sources are not in $rust (set RUST_SRC)"
    exit 77
fi
if ! [ -f "$oracle/build.sh" ]; then
    echo "no comparison with the Rust service: the oracle's stand-ins are not in $oracle (set ORACLE)"
    exit 77
fi
rm -rf target/oracle
mkdir -p target
cp -r "$oracle" target/oracle
chmod -R u+w target/oracle
RUST_SRC=$(realpath "$rust") sh target/oracle/build.sh
exec sh target/oracle/check.sh

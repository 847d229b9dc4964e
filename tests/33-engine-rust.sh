# Random walks: the exported library, and the proved program beside it, against the unchanged Rust service, and against the model.
# 100,000 calls are asked of the Rust; for a million write
#   bash tests/engine/compare.sh target/oracle/target/oracle 1000000 1
if ! [ -x target/oracle/target/oracle ]; then
    echo "no comparison with the Rust service: target/oracle/target/oracle was not built"
    exit 77
fi
exec bash tests/engine/compare.sh target/oracle/target/oracle 100000 1

# The same frames against the frame reader of fields/mpdu.rs.
exec bash tests/rust/compare.sh mpdu

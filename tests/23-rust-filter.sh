# Header reading and filter against is_frame_valid_and_for_us.
exec bash tests/rust/compare.sh filter

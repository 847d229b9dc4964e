# All 65,536 control values against FrameControl::is_valid.
exec bash tests/rust/compare.sh is_valid

# All 65,536 lengths against Ifs::from_mpdu_length.
exec bash tests/rust/compare.sh from_mpdu_length

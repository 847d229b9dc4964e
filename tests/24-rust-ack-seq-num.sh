# All 65,536 control values with three numbers against RadioFrame::ack_seq_num.
exec bash tests/rust/compare.sh ack_seq_num

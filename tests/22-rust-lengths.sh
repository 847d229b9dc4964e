# The four lengths of all 65,536 control values against AddressingRepr.
exec bash tests/rust/compare.sh lengths

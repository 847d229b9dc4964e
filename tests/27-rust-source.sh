# All facts of a header, the source's among them, of all 65,536 control values cut off at every length, against the readers of
# AddressingFields.
exec bash tests/rust/compare.sh source

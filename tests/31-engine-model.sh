# Random walks: the exported library, and the proved program beside it, against the model of document 01 with requests E1, E4 and E6
# (tests/engine/model.py). No Rust is needed.
exec bash tests/engine/compare.sh - 100000 2

# The scripted walk of docs/WALK.md is the first part of what the replay programs are run on, and of what they must print.
if ! command -v python3 >/dev/null; then
    echo "there is no python3"
    exit 77
fi
exec python3 -B tests/engine/sample.py walk crates/driver_replay

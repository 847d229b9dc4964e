# The scripted walk and the sample, on which rt ci runs driver_replay, over the exported library through C.
if ! command -v python3 >/dev/null; then
    echo "there is no python3"
    exit 77
fi
program=$(bash tests/engine/exported_replay.sh) || exit $?
exec python3 -B tests/engine/sample.py exported crates/driver_replay "$program"

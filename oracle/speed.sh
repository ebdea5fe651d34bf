#!/bin/sh
# Builds the static library and the oracle with it linked in, and times both beside each other. Without what this needs, says so and
# ends well.
cd "$(dirname "$0")" || exit 1
if [ -z "$ORIGINAL" ]; then
    echo "Not timed: ORIGINAL does not name the folder of the original's source."
    exit 0
fi
for tool in cargo rt; do
    if ! command -v "$tool" >/dev/null; then
        echo "Not timed: there is no $tool here."
        exit 0
    fi
done
(cd ../crates/lundwazo && rt lib) >speed.log 2>&1 || {
    tail -5 speed.log
    exit 1
}
LUNDWAZO=$(cd ../crates/lundwazo/out && pwd)
export LUNDWAZO
cargo build --release --offline -j1 --quiet --features side_by_side --target-dir target/speed || exit 1
exec target/speed/release/oracle --speed

#!/bin/sh
# Builds the oracle and compares it with `moves`. Without what this needs, says so and ends well.
# run.sh [options of compare.py]; MOVES names the program where it is not the one that `rt run` built.
cd "$(dirname "$0")" || exit 1
moves=${MOVES:-../crates/moves/out/moves}

if [ -z "$ORIGINAL" ]; then
    echo "Not compared: ORIGINAL does not name the folder of the original's source."
    exit 0
fi
for tool in cargo python3; do
    if ! command -v "$tool" >/dev/null; then
        echo "Not compared: there is no $tool here."
        exit 0
    fi
done
if [ ! -x "$moves" ]; then
    echo "Not compared: $moves is not there. \`rt run\` in crates/moves builds it."
    exit 0
fi

cargo build --release --offline -j1 --quiet || exit 1
python3 differences.py "$moves" target/release/oracle || exit 1
exec python3 compare.py "$moves" target/release/oracle "$@"

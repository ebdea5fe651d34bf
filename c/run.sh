#!/bin/sh
# Builds the static library and the example over it, runs that, and compares what it prints. CC names another compiler than cc.
cd "$(dirname "$0")" || exit 1
for tool in rt "${CC:-cc}"; do
    if ! command -v "$tool" >/dev/null; then
        echo "Not built: there is no $tool here."
        exit 0
    fi
done
(cd ../crates/lundwazo && rt lib) >build.log 2>&1 || {
    tail -5 build.log
    exit 1
}
"${CC:-cc}" -std=c11 -Wall -Wextra -Werror -O2 example.c ../crates/lundwazo/out/liblundwazo.a -o example || exit 1
./example >example.seen || exit 1
diff example.out example.seen && cat example.seen

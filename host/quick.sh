#!/bin/sh
# A quick pass of the example script, of the scripts, compare, hostile, the wrapper's tests and the C example, about two minutes once the
# library and the program are proved. Says so and passes where there is no Rust compiler; without the original compare is left out, without
# a C compiler the C example.
set -e
here=$(cd "$(dirname "$0")/.." && pwd)
if [ -n "${SHARED:-}" ]; then
    if [ ! -d "$SHARED/oracle" ]; then
        echo "host: SHARED is $SHARED, and there is no folder $SHARED/oracle" >&2
        exit 1
    fi
    SHARED=$(cd "$SHARED" && pwd)
    export SHARED
fi
cd "$here"
mkdir -p build
./settle examples/morning.script >build/morning.answers
if ! diff examples/morning.answers build/morning.answers; then
    echo "host: ./settle examples/morning.script does not print examples/morning.answers" >&2
    exit 1
fi
host/scripts.sh
if ! command -v cargo >/dev/null 2>&1; then
    echo "host: the rest is skipped, there is no cargo here"
    exit 0
fi
host/library.sh imbolaverk
cd "$here/host"
cargo build --release --offline --quiet
./runs.sh
if [ -d "${SHARED:-$here/../shared}/oracle" ]; then
    sh original.sh
    ./target/release/compare 400000
else
    echo "host: compare skipped, the original is not here"
fi
./target/release/hostile 400000
cargo test --release --offline --quiet
cd "$here"
if command -v cc >/dev/null 2>&1; then
    cc -std=c99 -Wall -Wextra -Werror -Iinclude examples/first.c build/library/libimbolaverk.a -o build/first
    build/first
else
    echo "host: the C example skipped, there is no cc here"
fi

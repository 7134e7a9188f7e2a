#!/bin/sh
# What holds of the Rust packages from the shell: the runs' options, what a build says where the archive is missing, and what the package
# that a tablet links holds. `quick.sh` runs it once they are built.
set -e
here=$(cd "$(dirname "$0")" && pwd)
room=$(mktemp -d)
trap 'rm -rf "$room"' EXIT
cd "$here"

fail() {
    echo "runs.sh: $*" >&2
    exit 1
}

for run in compare hostile; do
    program=./target/release/$run
    for option in --help -h; do
        $program $option >"$room/out" || fail "$run $option ended with $?"
        grep -q "^usage: $run" "$room/out" || fail "$run $option says no usage"
    done
    $program --version | grep -q '^imbolaverk [0-9]' || fail "$run --version says no version"
    for words in many --no-such-option '1 2'; do
        got=0
        # shellcheck disable=SC2086
        $program $words >"$room/out" 2>"$room/err" || got=$?
        [ "$got" -eq 2 ] || fail "$run $words ended with $got"
        grep -q "^usage: $run" "$room/err" || fail "$run $words says no usage"
    done
done
grep -q "^usage: bench" runs/src/bin/bench.rs || fail "bench has no usage"

# One sentence where there is no archive.
mkdir "$room/empty"
if IMBOLAVERK_LIB=$room/empty CARGO_TARGET_DIR=$room/target cargo build --offline --quiet -p imbolaverk 2>"$room/err"; then
    fail "a build passed without the archive"
fi
grep -q "libimbolaverk.a is missing: run .host/library.sh imbolaverk $(uname -m). first" "$room/err" || fail "without the archive: $(cat "$room/err")"
! grep -q panicked "$room/err" || fail "without the archive the build panics: $(cat "$room/err")"

# A build looks at the machine that it is for.
if CARGO_TARGET_DIR=$room/target cargo check --offline --quiet -p imbolaverk --target i686-unknown-linux-gnu 2>"$room/err"; then
    fail "a build for pointers of 32 bits passed"
fi
grep -q 'whose pointers have 64 bits' "$room/err" || fail "for pointers of 32 bits: $(cat "$room/err")"
other=aarch64
[ "$(uname -m)" != aarch64 ] || other=x86_64
if [ ! -e "../build/library/$other/libimbolaverk.a" ]; then
    ! CARGO_TARGET_DIR=$room/target cargo check --offline --quiet -p imbolaverk --target "$other-unknown-linux-gnu" 2>"$room/err" || fail "a build for $other passed"
    grep -q "build/library/$other/libimbolaverk.a is missing" "$room/err" || fail "for $other: $(cat "$room/err")"
fi

# What a tablet links is the wrapper and the entry points, and nothing of the runs.
[ "$(cd src && echo *)" = 'lib.rs raw.rs' ] || fail "the package imbolaverk has other files than lib.rs and raw.rs: $(cd src && echo *)"
echo "runs.sh: options, messages and packages are as they should be"

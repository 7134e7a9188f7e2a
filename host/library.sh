#!/bin/sh
# Proves a library of this repository and writes its archive; usage() says how it is called and what it writes.
set -e
me=library.sh
first_time="up to a quarter of an hour on four cores"
own=$(readlink -f "$0")
here=$(cd "$(dirname "$own")/.." && pwd)
. "$here/host/proving.sh"

usage() {
    cat <<TEXT
usage: library.sh [NAME [MACHINE]]

Proves a library and writes build/library/MACHINE/libNAME.a, and for the machine at hand build/library/libNAME.a as well.

  NAME        imbolaverk (left out: this one), or unchecked, for the benchmark
  MACHINE     x86_64 or aarch64, as "uname -m" says it there (left out: the machine at hand)
  --help, -h  this text
  --version   the version

The first time takes $first_time.
TEXT
}

case ${1:-} in
--help | -h)
    usage
    exit 0
    ;;
--version)
    version
    exit 0
    ;;
-*)
    usage >&2
    exit 2
    ;;
esac
[ $# -le 2 ] || {
    usage >&2
    exit 2
}
name=${1:-imbolaverk}
machine=$(uname -m)
wanted=${2:-$machine}
# The C symbols are a crate of their own, over the library that Rattle crates use.
case $name in
imbolaverk) crate=imbolaverk_c ;;
unchecked) crate=unchecked ;;
*) die "there is no library $name, only imbolaverk and unchecked" ;;
esac
# The module's lengths have 64 bits whatever it is compiled for, and those of the header are as long as a pointer.
case $wanted in
x86_64) processor=x86-64 ;;
aarch64) processor=generic ;;
*) die "no archive for $wanted: the library is for machines whose pointers have 64 bits, as x86_64 and aarch64" ;;
esac

need_rt
archives=$here/build/library
archive=$archives/$wanted/lib$name.a
stamp="$wanted $(stamp_of "$crate")"

if ! is_current "$archive" "$stamp"; then
    begin_proving
    # Another may have written it while this one waited.
    if ! is_current "$archive" "$stamp"; then
        # For every processor of the kind, whatever the toolchain would take.
        prove "$crate" rt lib --target "$wanted-unknown-linux-gnu" --cpu "$processor"
        keep "$here/crates/$crate/out/lib$crate.a" "$archive" "$stamp"
    fi
    end_proving
fi
if [ "$wanted" = "$machine" ]; then
    put "$archive" "$archives/lib$name.a"
    archive=$archives/lib$name.a
fi
echo "library.sh: ${archive#"$here/"} is proved, for $wanted"

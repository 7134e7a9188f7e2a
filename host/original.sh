#!/bin/sh
# Builds the original crate unchanged, with its script driver, into build/original of this repository.
# SHARED names the folder that holds docs/src and oracle/ (default: shared/ beside the repository).
set -e
here=$(cd "$(dirname "$0")/.." && pwd)
shared=${SHARED:-$here/../shared}
if [ ! -d "$shared/oracle" ]; then
    echo "original.sh: no folder $shared/oracle; set SHARED" >&2
    exit 2
fi
mkdir -p "$here/build/original"
ORACLE_OUT=$here/build/original sh "$shared/oracle/original/build.sh" "$shared/docs/src" pure

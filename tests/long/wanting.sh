#!/bin/sh
# Refuses memory to the commands of both programs but `serve` (memory.sh): of short runs, some of
# which end with a fault that has a name, each growth is refused in its turn, and in one run none.
# Where none is refused a run ends as it should, and doesn't say that memory is wanting. Where one
# is, the run says so, with a front of what it prints, or it ends as it should. A journal that is
# only read stays as it was; one that a desk or a stream writes is whole after the same run again.
# Growths are refused by a library in C (refuse.c). Skipped where there is no cc. BOOKS names
# another program `books`. It takes some minutes. Not part of the merge gate.
cd "$(dirname "$0")/../.." || exit 1
top=$(pwd)
. tests/lib/program.sh
command -v cc > /dev/null || { echo "wanting: skipped: there is no cc"; exit 0; }
scratch=$(mktemp -d) || exit 1
trap 'rm -rf "$scratch"' EXIT
cc -O1 -shared -fPIC -o "$scratch/refuse.so" tests/lib/refuse.c || { echo "wanting: cc makes no library"; exit 1; }
PYTHONPATH=$top/tests/lib timeout 900 python3 tests/lib/wanting.py "$program" "${BOOKS:-$(built books)}" "$scratch"

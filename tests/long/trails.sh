#!/bin/sh
# The log of who entered what (docs/OPERATE.md), tried by trails.py without a proxy: what `trail`
# joins, logs that were changed or cut, that are of another journal, or whose clock goes back, and
# how trail.py goes on after each stop. tests/long/operate.sh runs it, too.
cd "$(dirname "$0")/../.." || exit 1
top=$(pwd)
. tests/lib/program.sh
books=${BOOKS:-$(built books)}
[ -x "$books" ] || { echo "there is no program books: run ./build" >&2; exit 1; }
scratch=$(mktemp -d) || exit 1
trap 'rm -rf "$scratch"' EXIT
cd "$scratch" && PYTHONPATH=$top/tests/lib PYTHONDONTWRITEBYTECODE=1 python3 "$top/tests/lib/trails.py" "$program" "$books"

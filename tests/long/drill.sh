#!/bin/sh
# Going over to the second machine, and restoring from a copy, as docs/OPERATE.md has them, over
# folders of this machine (drill.py): a `serve` under the calls of four desks, which ship.sh ships
# and backup.sh copies meanwhile, is killed at a random moment with all that runs beside it. It goes
# on from the second folder, and then from the last copy. No accepted entry that was shipped, or
# copied, may be lost; what wasn't is named. As often as the argument says, or three times.
# tests/long/operate.sh runs it, too.
cd "$(dirname "$0")/../.." || exit 1
top=$(pwd)
. tests/lib/program.sh
books=${BOOKS:-$(built books)}
[ -x "$books" ] || { echo "there is no program books: run ./build" >&2; exit 1; }
scratch=$(mktemp -d) || exit 1
trap 'rm -rf "$scratch"' EXIT
cd "$scratch" && PYTHONPATH=$top/tests/lib PYTHONDONTWRITEBYTECODE=1 timeout 1200 python3 "$top/tests/lib/drill.py" "$program" "$books" "${1:-3}"

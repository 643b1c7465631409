#!/bin/sh
# What `books` says when it is asked, beside the independent office (lib/asked.py): of the year of
# a town (examples/town) the ledger of each line, source, vendor, fund and department, each month,
# and five statements of each fiscal year through each month's end; and all lists of random talks,
# 20 of 800 calls or as many as the arguments say. BOOKS names another program than the one that rt
# built last.
cd "$(dirname "$0")/../.." || exit 1
top=$(pwd)
. tests/lib/built.sh
books=${BOOKS:-$(built books)}
[ -x "$books" ] || { echo "there is no program books: run ./build" >&2; exit 1; }
PYTHONDONTWRITEBYTECODE=1
export PYTHONDONTWRITEBYTECODE
scratch=$(mktemp -d) || exit 1
trap 'rm -rf "$scratch"' EXIT
python3 tests/lib/asked.py "$books" "$scratch" examples/town/chart.toml examples/town/year.jsonl whole &&
    python3 tests/lib/asked.py "$books" "$scratch" random "${1:-20}" "${2:-800}" "${3:-1}"

#!/bin/sh
# The commands pool, claim, report, ship and follow of the program against the independent office of tests/office (Python):
#
#     tests/long/reach.sh [TALKS [CALLS [FIRST]]]
#
# The stored commands (tests/commands), the commands at their bounds, and 40 talks of 300 calls where nothing else is said, from the seed
# FIRST (1) on, each over a chart of its own. At four points of a talk: interest of some months, claims by a good document and by one
# with a fault, statements as text and as records, a stream that another office follows, and streams that leave entries out or have them
# twice over histories that differ; receipts and claims are then sent to the desk. Every fourth seed has a month of 31 days over 200
# entries that move cash. It prints how often each command was tried, and the first thing of each talk that differs, with its seed.
# PROGRAM names another program than the one that rt built last. Not part of the merge gate.
cd "$(dirname "$0")/../.." || exit 1
top=$(pwd)
. tests/lib/program.sh
[ -w /dev/shm ] && export TMPDIR=/dev/shm # where syncs cost nothing
scratch=$(mktemp -d) || exit 1
trap 'rm -rf "$scratch"' EXIT
failed=0
python3 tests/office/commands.py tests/commands "$program" || failed=1
python3 tests/office/bounds.py "$program" "$scratch/bounds" || failed=1
python3 tests/office/reach.py "$program" "$scratch/talks" "${1:-40}" "${2:-300}" "${3:-1}" || failed=1
exit "$failed"

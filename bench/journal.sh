#!/bin/sh
# How fast a desk opens a long journal, on the built program. The journal has an adoption and 200,000 direct vouchers of
# one item, or as many as its argument says. Its bytes are written here, as syncs would make a desk too slow for that.
# Prints the seconds of a desk on empty input, and entries a second.
top=$(cd "$(dirname "$0")/.." && pwd)
. "$top/tests/lib/program.sh"
scratch=$(mktemp -d) || exit 1
trap 'rm -rf "$scratch"' EXIT
cp "$top/examples/rivertown/chart.toml" "$scratch/chart.toml"
cd "$scratch" && PYTHONPATH=$top/bench PYTHONDONTWRITEBYTECODE=1 python3 - "$program" "${1:-200000}" <<'PY'
import resource, subprocess, sys, time

import journals

PROGRAM, VOUCHERS = sys.argv[1], int(sys.argv[2])

size = journals.write(VOUCHERS)

start = time.time()
status = subprocess.run([PROGRAM, "desk"], stdin=subprocess.DEVNULL).returncode
seconds = time.time() - start
peak = resource.getrusage(resource.RUSAGE_CHILDREN).ru_maxrss
look = '{"call":"line","line":3,"year":2026}\n'
said = subprocess.run([PROGRAM, "desk"], input=look.encode(), stdout=subprocess.PIPE).stdout.decode()
print(f"journal: {VOUCHERS + 1:,} entries in {size:,} bytes, opened in {seconds:.2f} s: {(VOUCHERS + 1) / seconds:,.0f} entries a second, "
      f"{peak:,} KiB at most, status {status}")
print(said, end="")
PY

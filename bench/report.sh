#!/bin/sh
# How long a report takes over a long journal, beside a desk that opens it and reads nothing, and how fast a large run is
# generated, on the built program. The journal has an adoption and 1,000,000 direct vouchers of one item, or as many as the
# argument says. Prints the seconds of each, and the calls a second of `generate 100000`, which is to be 100,000 at least.
top=$(cd "$(dirname "$0")/.." && pwd)
. "$top/tests/lib/program.sh"
scratch=$(mktemp -d) || exit 1
trap 'rm -rf "$scratch"' EXIT
cp "$top/examples/rivertown/chart.toml" "$scratch/chart.toml"
cd "$scratch" && PYTHONPATH=$top/bench PYTHONDONTWRITEBYTECODE=1 python3 - "$program" "${1:-1000000}" <<'PY'
import subprocess, sys, time

import journals

PROGRAM, VOUCHERS, CALLS = sys.argv[1], int(sys.argv[2]), 100_000
KINDS = ("balance", "operating", "budget", "position", "activities", "reconcile", "changes")

def timed(*words):
    """The seconds of a run of these words on empty input, and what it printed."""
    start = time.time()
    said = subprocess.run([PROGRAM, *words], stdin=subprocess.DEVNULL, stdout=subprocess.PIPE, check=True).stdout
    return time.time() - start, said

size = journals.write(VOUCHERS)
opened, _ = timed("desk")
print(f"report: {VOUCHERS + 1:,} entries in {size:,} bytes; a desk opens them in {opened:.2f} s")
for kind in KINDS:
    seconds, said = timed("report", "2026", kind)
    print(f"  report 2026 {kind}: {seconds:.2f} s, {len(said):,} bytes")
(seconds, said), (again, same) = timed("generate", str(CALLS)), timed("generate", str(CALLS))
rate = CALLS / min(seconds, again)
print(f"generate {CALLS}: {seconds:.2f} s and {again:.2f} s, {rate:,.0f} calls a second, {'the same' if said == same else 'NOT the same'} both times")
print(said.decode(), end="")
sys.exit(0 if said == same and rate >= 100_000 else 1)
PY

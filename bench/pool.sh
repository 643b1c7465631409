#!/bin/sh
# How long `pool` takes over a long journal beside a report, on the built program: with two funds that share, and with the most that a
# chart may have. The movements are read once, and each finds its fund by halving, so the number of funds is to tell little. The journal
# has 100,000 receipts over the days of a month, or as many as the argument says. Prints the least seconds of seven runs of each, in
# turn; `pool` is to take at most 1.2 times what the report does.
top=$(cd "$(dirname "$0")/.." && pwd)
. "$top/tests/lib/program.sh"
scratch=$(mktemp -d) || exit 1
trap 'rm -rf "$scratch"' EXIT
cp "$top/examples/milltown/chart.toml" "$scratch/chart.toml"
cd "$scratch" && PYTHONPATH=$top/bench PYTHONDONTWRITEBYTECODE=1 python3 - "$program" "${1:-100000}" <<'PY'
import subprocess, sys, time

import journals

PROGRAM, RECEIPTS, RUNS = sys.argv[1], int(sys.argv[2]), 7

def timed(*words):
    """The seconds of a run of these words, and what it printed."""
    start = time.time()
    said = subprocess.run([PROGRAM, *words], stdin=subprocess.DEVNULL, stdout=subprocess.PIPE, check=True).stdout
    return time.time() - start, said

def with_funds(count):
    """Makes the chart one of so many funds, each more with a source of kind general; the sources that interest is received on."""
    more = range(100, 100 + count - 3)
    with open("chart.toml", "w") as file:
        file.write(CHART)
        for fund in more:
            file.write(f'\n[[fund]]\nid = {fund}\nname = "Fund {fund}"\ntype = "special_revenue"\nlevel = "department"\npolicy = "lapse"\n')
            file.write(f'\n[[source]]\nid = {fund + 900}\nname = "Fees {fund}"\nfund = {fund}\nkind = "general"\nwindow = 30\n')
    return [4, 6, *(fund + 900 for fund in more)]

with open("chart.toml") as file:
    CHART = file.read()
slow = False
for funds in (3, 64):
    size = journals.write_receipts(RECEIPTS, with_funds(funds))
    runs = [(timed("report", "2026", "balance"), timed("pool", "2025-07", "100000", "5")) for _ in range(RUNS)]
    report, pool = min(seconds for (seconds, _), _ in runs), min(seconds for _, (seconds, _) in runs)
    slow = slow or pool > 1.2 * report
    print(f"pool: {funds} funds, {RECEIPTS:,} entries in {size:,} bytes; a report {report:.3f} s, pool {pool:.3f} s, {pool / report:.2f} times as long")
sys.exit(1 if slow else 0)
PY
